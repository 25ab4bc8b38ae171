/* Asks for the total of att.dll with one export, att_step with ordinal 5, writes its members, and prints what came of it. */
#include "crepedum.h"
#include <stdio.h>
#include <stdlib.h>
#include <string.h>

enum { HEADER = 28, RECORD = 44, SET_HEADER = 16, MACHINE_AMD64 = 0x8664 };

static const char names[] = "att.dllatt_step";
static const uint32_t names_len = sizeof names - 1;

static void put(uint8_t *list, size_t at, uint32_t number) {
    for (int k = 0; k < 4; k++) list[at + k] = (uint8_t)(number >> 8 * k);
}

/* One record in the first list, none in the native one; returns the list's length. */
static size_t make_list(uint8_t *list) {
    memset(list, 0, HEADER + RECORD);
    put(list, 0, 1);
    put(list, 8, HEADER);
    put(list, 12, HEADER + RECORD);
    put(list, 16, names_len);
    put(list, 24, 7); /* the DLL name: at 0, 7 bytes */
    put(list, HEADER, 7);
    put(list, HEADER + 4, 8); /* the export's name: at 7, 8 bytes */
    list[HEADER + 40] = 5;    /* its ordinal */
    memcpy(list + HEADER + RECORD, names, names_len);
    return HEADER + RECORD + names_len;
}

static void show(const char *what, const uint8_t *bytes, size_t length) {
    printf("%s", what);
    for (size_t k = 0; k < length; k++) printf(" %02x", bytes[k]);
    printf("\n");
}

int main(void) {
    static crepedum_slot slots[CREPEDUM_SLOTS];
    uint8_t list[HEADER + RECORD + sizeof names];
    size_t length = make_list(list);
    uint64_t total = crepedum_total(list, length, MACHINE_AMD64, false, false);
    if (total >> 32) return 1;
    printf("total %u\n", (unsigned)total);
    uint8_t *out = malloc(total);
    if (!out) return 1;
    uint64_t refusal = crepedum_write(list, length, MACHINE_AMD64, false, false, slots, CREPEDUM_SLOTS, out, total - 1);
    printf("one byte less: refusal %u, place %u\n", (unsigned)(refusal >> 32), (unsigned)refusal);
    refusal = crepedum_write(list, length, MACHINE_AMD64, false, false, slots, CREPEDUM_SLOTS - 1, out, total);
    printf("one slot less: refusal %u, place %u\n", (unsigned)(refusal >> 32), (unsigned)refusal);
    if (crepedum_write(list, length, MACHINE_AMD64, false, false, slots, CREPEDUM_SLOTS, out, total) != total) return 1;
    show("header", out, SET_HEADER);
    show("import", out + total - 37, 37);
    free(out);
    return 0;
}
