#!/usr/bin/env python3
"""Compares our members with those that llvm-lib and llvm-dlltool make of module definitions, byte for byte.

tools/link-test runs this, with examples/ among Python's paths.
"""

import tempfile
from pathlib import Path

import archive
import lists
from linking import COMMAND, Differs, llvm, run, told

EACH = 24
SHORT_HEADER = 20
LIB_MACHINES = {"amd64": "x64", "i386": "x86", "armnt": "arm", "arm64": "arm64", "arm64ec": "arm64ec", "arm64x": "arm64x"}
# docs/DIFFERENCES.md: machine, DLL and export of a definition; the names in llvm-lib's import, or nothing where it fails; and
# the number of our refusal.
DIFFERENCES = [
    ("arm64ec", "a.dll", "?f@@YAXXZ", b"?f@@$$hYAXXZ\0a.dll\0?f@@YAXXZ\0", 13),
    ("arm64ec", "a.dll", "?f", None, 13),
    ("amd64", "x/a.dll", "f", b"f\0a.dll\0", 10),
    ("amd64", "a.dll", "f" * 4096, b"f" * 4096 + b"\0a.dll\0", 7),
]
TOOL_MACHINES = {"amd64": "i386:x86-64", "i386": "i386", "armnt": "arm", "arm64": "arm64"}


def definitions(is_i386):
    """Lines of a module definition: a few dozen exports of each kind, as name, marks, and the fields that go with them."""
    for k in range(EACH):
        yield f"step{k}", "", {}
        yield f"hint{k}", f"@{k + 100}", {"ordinal": k + 100}
        yield f"hidden{k}", f"@{k + 200} NONAME", {"ordinal": k + 200, "flags": ["noname"]}
        yield f"table{k}", "DATA", {"flags": ["data"]}
        yield f"seven{k}", f"@{k + 300} NONAME DATA", {"ordinal": k + 300, "flags": ["noname", "data"]}
        yield f"limit{k}", "CONSTANT", {"flags": ["constant"]}
        yield f"inner{k}", "PRIVATE", {"flags": ["private"]}
        yield f"far{k}", f"EXPORTAS distant{k}", {"export_as": f"distant{k}"}
        yield f"out{k}=in{k}", "", {"ext_name": f"out{k}"}
        yield f"go{k}", f"== step{k}", {"import_name": f"step{k}"}
        yield f"secret{k}", f"== hidden{k}", {"import_name": f"hidden{k}"}
        yield f"mirror{k}", f"DATA == table{k}", {"import_name": f"table{k}", "flags": ["data"]}
        yield f"lost{k}", f"== gone{k}", {"import_name": f"gone{k}"}
        if is_i386:
            yield f"call{k}@{4 * k}", "", {}
            yield f"@fast{k}@{4 * k}", "", {}
            yield f"?draw{k}@@YAXXZ", "", {}
            yield f"_own{k}", "", {}


def decorated(name, is_mingw):
    """Whether the tools take a name of I386 as it stands."""
    return name.startswith(("?", "@")) or "@@" in name or not is_mingw and "@" in name


def record(name, fields, is_i386, is_mingw):
    """The record of a line, with the underscores that the tools put before names of I386."""
    name = name.rpartition("=")[2]
    fields = dict(fields)
    flags = fields.pop("flags", [])
    if is_i386 and not decorated(name, is_mingw):
        name = f"_{name}"
        if "ext_name" in fields:
            fields["ext_name"] = f"_{fields['ext_name']}"
    return lists.export(name, *flags, **fields)


def killed(export):
    """What dlltool -k makes of a record: the name loses its decoration, and the symbol keeps it."""
    name = export["name"].decode()
    if "import_name" in export or name.startswith("?"):
        return export
    at = name.find("@", 1)
    return {**export, "symbol_name": export["name"], "name": name[: at if at > 0 else None].encode()}


def ours(folder, records, native, machine, is_mingw):
    """Our members, by the command."""
    listed, members = folder / "att.list", folder / "members"
    listed.write_bytes(lists.encode(b"att.dll", records, native))
    run(COMMAND, "write", listed, "--machine", machine, *["--mingw"] * is_mingw, "--members", members)
    return [file.read_bytes() for file in sorted(members.iterdir())]


def compare(what, machine, tool, is_mingw=False, kill=False, with_native=False):
    """Compares the members of one machine; their number."""
    is_i386 = machine == "i386"
    lines = list(definitions(is_i386))
    records = [record(name, fields, is_i386, is_mingw) for name, _, fields in lines]
    records = [killed(export) for export in records] if kill else records
    with tempfile.TemporaryDirectory() as name:
        folder = Path(name)
        text = "\n".join(["LIBRARY att.dll", "EXPORTS", *(f"  {name} {marks}" for name, marks, _ in lines), ""])
        (folder / "att.def").write_text(text)
        tool(folder / "att.def", folder / "att.lib")
        theirs = [body for _, body in archive.members((folder / "att.lib").read_bytes())]
        native = records if with_native else []
        mine = ours(folder, records, native, machine, is_mingw)
    for index, (one, other) in enumerate(zip(mine, theirs)):
        if one != other:
            raise Differs(f"{what}: member {index + 1} is {one.hex()}, and theirs {other.hex()}")
    if len(mine) != len(theirs):
        raise Differs(f"{what}: {len(mine)} members, and theirs are {len(theirs)}")
    print(f"  {what}: {len(mine)} members are the same")
    return len(mine)


def differ(machine, dll, name, theirs, refusal):
    """Sees one row of the differences."""
    with tempfile.TemporaryDirectory() as place:
        source, made, listed = (Path(place) / name for name in ("a.def", "a.lib", "a.list"))
        source.write_text(f"LIBRARY {dll}\nEXPORTS\n  {name}\n")
        words = [f"/def:{source}", f"/machine:{LIB_MACHINES[machine]}", f"/out:{made}"]
        is_made = llvm("llvm-lib", *words, check=False).returncode == 0
        found = archive.members(made.read_bytes())[-1][1][SHORT_HEADER:] if is_made else None
        listed.write_bytes(lists.encode(dll.encode(), [lists.export(name)]))
        status = run(COMMAND, "write", listed, "--machine", machine, "-o", "-", check=False).returncode
    if (found, status) != (theirs, refusal):
        raise Differs(f"{machine}, {dll}, {name}: llvm-lib gives {found}, and our status is {status}")


def lib(machine, *more):
    """llvm-lib for a machine."""
    return lambda source, made: llvm("llvm-lib", f"/def:{source}", f"/machine:{machine}", f"/out:{made}", *more)


def lib_native(machine):
    """llvm-lib with the same definition for both lists."""
    return lambda source, made: lib(machine, f"/defarm64native:{source}")(source, made)


def dlltool(machine, *more):
    """llvm-dlltool for a machine."""
    return lambda source, made: llvm("llvm-dlltool", "-m", machine, "-d", source, "-l", made, *more)


def main():
    """Compares each tool on each machine."""
    total = 0
    for machine, name in LIB_MACHINES.items():
        total += compare(f"{machine}, llvm-lib", machine, lib(name))
    total += compare("arm64x, llvm-lib, both lists", "arm64x", lib_native("arm64x"), with_native=True)
    for machine, name in TOOL_MACHINES.items():
        total += compare(f"{machine}, llvm-dlltool", machine, dlltool(name), is_mingw=True)
    total += compare("i386, llvm-dlltool -k", "i386", dlltool("i386", "-k"), is_mingw=True, kill=True)
    for row in DIFFERENCES:
        differ(*row)
    print(f"  {len(DIFFERENCES)} differences are those of docs/DIFFERENCES.md")
    print(f"{total} members are llvm-lib's and llvm-dlltool's, byte for byte")


if __name__ == "__main__":
    told(main)
