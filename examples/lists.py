#!/usr/bin/env python3
"""Makes an export list of a text, and shows one as such a text.

    lists.py make TEXT > LIST
    lists.py show LIST

A text has a line `dll NAME`, then one line for each export: its name, then any of ext_name=, symbol_name=, import_name=,
export_as= and ordinal= with a value, and the flags noname, data, private and constant. A line `native` begins the native
list. A line that starts with # is a remark.
"""

import struct
import sys

STRINGS = ("name", "ext_name", "symbol_name", "import_name", "export_as")
FLAGS = {"noname": 1, "data": 2, "private": 4, "constant": 8}
HEADER = struct.Struct("<7I")
RECORD = struct.Struct("<10I2H")


def export(name, *flags, **fields):
    """One export: bytes for each string that it has, an ordinal, and the names of its flags."""
    strings = {key: value.encode() for key, value in fields.items() if key != "ordinal"}
    return {"name": name.encode(), **strings, "ordinal": fields.get("ordinal", 0), "flags": list(flags)}


def encode(dll, first, native=()):
    """The bytes of a list. Nothing is judged: the library does that."""
    names = bytearray(dll)
    records = b""
    for record in (*first, *native):
        places = []
        for key in STRINGS:
            string = record.get(key)
            places += [0, 0] if string is None else [len(names), len(string)]
            names += string or b""
        records += RECORD.pack(*places, record["ordinal"], sum(FLAGS[flag] for flag in record["flags"]))
    names_at = HEADER.size + len(records)
    header = HEADER.pack(len(first), len(native), HEADER.size, names_at, len(names), 0, len(dll))
    return header + records + bytes(names)


def decode(listed):
    """The DLL name and the two lists of exports of a list that the library takes."""
    firsts, natives, records_at, names_at, _, dll_at, dll_len = HEADER.unpack_from(listed)
    names = listed[names_at:]
    records = []
    for index in range(firsts + natives):
        *places, ordinal, flags = RECORD.unpack_from(listed, records_at + RECORD.size * index)
        record = {"ordinal": ordinal, "flags": [flag for flag, bit in FLAGS.items() if flags & bit]}
        for key, start, length in zip(STRINGS, places[::2], places[1::2]):
            if length:
                record[key] = names[start : start + length]
        records.append(record)
    return names[dll_at : dll_at + dll_len], records[:firsts], records[firsts:]


def parse(text):
    """The DLL name and the two lists of exports that a text has."""
    dll, lists = b"", [[]]
    for line in text.splitlines():
        words = line.split()
        if not words or words[0].startswith("#"):
            continue
        if words[0] == "dll" and len(words) == 2:
            dll = words[1].encode()
        elif words == ["native"]:
            lists.append([])
        else:
            fields = dict(word.split("=", 1) for word in words[1:] if "=" in word)
            if "ordinal" in fields:
                fields["ordinal"] = int(fields["ordinal"])
            lists[-1].append(export(words[0], *(word for word in words[1:] if "=" not in word), **fields))
    return dll, lists[0], lists[1] if len(lists) > 1 else []


def shown(dll, first, native):
    """The text of a list."""
    lines = [f"dll {dll.decode()}"]
    for index, record in enumerate((*first, *native)):
        if index == len(first):
            lines.append("native")
        words = [record["name"].decode()]
        words += [f"{key}={record[key].decode()}" for key in STRINGS[1:] if key in record]
        words += [f"ordinal={record['ordinal']}"] if record["ordinal"] else []
        lines.append(" ".join(words + record["flags"]))
    return "\n".join(lines)


def main(words):
    """0 where the words were understood."""
    if len(words) != 2 or words[0] not in ("make", "show"):
        sys.stderr.write(__doc__)
        return 64
    if words[0] == "make":
        with open(words[1], encoding="utf-8") as text:
            sys.stdout.buffer.write(encode(*parse(text.read())))
    else:
        with open(words[1], "rb") as listed:
            print(shown(*decode(listed.read())))
    return 0


if __name__ == "__main__":
    sys.exit(main(sys.argv[1:]))
