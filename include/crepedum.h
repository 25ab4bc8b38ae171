/* Crepedum: import-library members. Every function takes any bytes. */
#ifndef CREPEDUM_H
#define CREPEDUM_H
#include <stdbool.h>
#include <stddef.h>
#include <stdint.h>

/* Checks an export list: 0 where no refusal from 1 to 14 applies, else the refusal's number times 2^32, plus its place. */
uint64_t crepedum_check(const uint8_t *list, size_t list_len, uint32_t machine, bool mingw);

/* Asks how large the member set of an export list is, so that room can be reserved: the total (below 2^32), or the number of a refusal
   from 1 to 14 times 2^32, plus its place. Nothing is written; it takes up to some 160 KiB of stack. */
uint64_t crepedum_total(const uint8_t *list, size_t list_len, uint32_t machine, bool mingw, bool whole_archive_compat);

/* A slot of the table that crepedum_write works in; what it holds does not matter. */
typedef struct { uint32_t state, hash, record; } crepedum_slot;

/* How many slots are enough for every list; more are as good. */
#define CREPEDUM_SLOTS 8192

/* Writes the member set of an export list into out, of out_len bytes, whether or not anybody asked for its total. Returns what
   crepedum_total returns, but where that is a total: 19 times 2^32 if slots_len is below CREPEDUM_SLOTS, else 15 times 2^32 if the
   total is larger than out_len. On a refusal all of out is as before; on success what stands beyond the total is. On 19 the slots
   are as before, too; after any other answer they may hold anything. list, slots and out must not overlap. */
uint64_t crepedum_write(const uint8_t *list, size_t list_len, uint32_t machine, bool mingw, bool whole_archive_compat, crepedum_slot *slots, size_t slots_len, uint8_t *out, size_t out_len);

/* Reads a member: 1 import descriptor, 2 null import descriptor, 3 null thunk, 4 short import, 5 weak external. The first 11
   fields are then its machine, ordinal, type, kind and compat, and the start and length of each of its names within the member,
   0 where the layout has none: DLL name and stem (1), stem (2, 3), symbol, DLL name and export string (4), target and alias (5).
   Else the refusal's number times 2^32, and no field is changed: 15 where fields_len is below 11, which is tested first, and 16
   where the bytes are no member. */
uint64_t crepedum_read(const uint8_t *member, size_t len, uint32_t *fields, size_t fields_len);

/* Looks up where a symbol leads in list 1 or 2 of a member set: 0 not found (so in any other list), 1 nowhere, 2 by the ordinal in
   fields[0], 3 by the name that starts at fields[0] in the set and has fields[1] bytes. Else the refusal's number times 2^32: 15
   where fields_len is below 2, which is tested first, and 17 where the bytes are no member set, or 2^32 or more. Fields that an
   answer does not use, all of them on a refusal, are unchanged. */
uint64_t crepedum_lookup(const uint8_t *set, size_t set_len, uint32_t list, const uint8_t *symbol, size_t symbol_len, uint32_t *fields, size_t fields_len);

#endif
