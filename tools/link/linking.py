#!/usr/bin/env python3
"""Links programs against our members with real linkers and compares each symbol's import with what `crepedum lookup` says.

tools/link-test runs this, with examples/ among Python's paths.
"""

import json
import os
import shutil
import subprocess
import sys
import tempfile
from pathlib import Path

import lists
import programs
from pe import Image

ROOT = Path(__file__).resolve().parents[2]
COMMAND = ROOT / "rust/target/release/crepedum"
GNU = {"amd64": "x86_64-w64-mingw32-ld", "i386": "i686-w64-mingw32-ld"}
TRIPLES = {"amd64": "x86_64", "i386": "i686", "arm64": "aarch64", "arm64ec": "arm64ec"}
SOURCES = {
    "amd64": ROOT / "examples/att.exports",
    "arm64": ROOT / "examples/att.exports",
    "i386": ROOT / "tools/link/i386.exports",
}
# GNU ld 2.40 takes neither these nor constants.
NOT_FOR_GNU = ("export_as", "import_name")


class Differs(Exception):
    """A symbol leads elsewhere, or a tool fails."""


def told(tests):
    """Runs tests; a difference is told, and is a failure."""
    try:
        tests()
    except Differs as difference:
        print(f"difference: {difference}")
        sys.exit(1)


def run(*words, check=True):
    """Runs a program and returns what it wrote; a failure is a difference."""
    done = subprocess.run([str(word) for word in words], capture_output=True, text=True, check=False)
    if check and done.returncode:
        raise Differs(f"{Path(words[0]).name}: status {done.returncode}: {done.stdout}{done.stderr}".strip())
    return done


def llvm(tool, *words, check=True):
    """Runs a tool of LLVM in the version that was asked for."""
    return run(f"{tool}{os.environ.get('LLVM_SUFFIX', '')}", *words, check=check)


class Job:
    """One machine's members, the symbols in them and the entries to which they lead."""

    def __init__(self, folder, machine, exports):
        self.folder, self.machine = folder, machine
        self.word = ".long" if machine == "i386" else ".quad"
        self.entry = "_start" if machine == "i386" else "start"
        folder.mkdir()
        self.set, self.members = folder / "att.set", folder / "members"
        listed = folder / "att.list"
        listed.write_bytes(lists.encode(*exports))
        run(COMMAND, "write", listed, "--machine", machine, "-o", self.set, "--members", self.members)
        self.wanted, self.lost = {}, ["att_none"]
        self.shown = json.loads(run(COMMAND, "show", self.set, "--json").stdout)["members"]
        for member in self.shown:
            for symbol in member["symbols"]:
                self.add(symbol["symbol"])

    def add(self, symbol):
        """Takes up a symbol with the entry to which it leads, or as one that leads nowhere."""
        led = self.lookup(symbol)
        if led == "nowhere":
            self.lost.append(symbol)
        else:
            self.wanted[symbol] = led

    def lookup(self, symbol):
        """What the command says of a symbol."""
        return run(COMMAND, "lookup", self.set, symbol).stdout.rstrip("\n")

    def files(self):
        """The members in their order."""
        return sorted(self.members.iterdir())

    def object(self, name, source):
        """An object file made of assembly."""
        text, made = self.folder / f"{name}.s", self.folder / f"{name}.obj"
        text.write_text(source)
        llvm("llvm-mc", f"--triple={TRIPLES[self.machine]}-pc-windows-msvc", "--filetype=obj", text, "-o", made)
        return made

    def program(self):
        """The object that refers to each symbol."""
        return self.object("program", programs.idle(self.entry, self.wanted, self.word))

    def link(self, name, program, archive):
        """The image that lld-link makes."""
        image = self.folder / f"{name}.exe"
        machine = {"amd64": "x64", "i386": "x86"}.get(self.machine, self.machine)
        options = ["/subsystem:console", "/entry:start", "/nodefaultlib", "/opt:noref", "/safeseh:no"]
        llvm("lld-link", *options, f"/machine:{machine}", f"/out:{image}", program, archive)
        return image

    def led(self, image):
        """The entry to which each symbol leads in an image."""
        image = Image(image.read_bytes())
        slots = image.imports()
        rva = image.sections[programs.REFERENCES][0]
        found = {}
        for symbol in self.wanted:
            address = image.word.unpack_from(image.data, image.at(rva))[0] - image.base
            dll, entry = slots.get(image.slot(address, slots), ("no DLL", "no entry"))
            found[symbol] = entry if dll == "att.dll" else f"{entry} of {dll}"
            rva += image.word.size
        return found

    def compare(self, what, image):
        """Compares an image with the lookup; the number of symbols."""
        for symbol, entry in self.led(image).items():
            if entry != self.wanted[symbol]:
                raise Differs(f"{what}: {symbol} leads to {entry}, and lookup says {self.wanted[symbol]}")
        print(f"  {what}: {len(self.wanted)} symbols lead where lookup says")
        return len(self.wanted)


def with_lld(job):
    """Archives made by llvm-ar and llvm-lib, linked by lld-link."""
    program = job.program()
    by_ar, by_lib = job.folder / "ar.lib", job.folder / "lib.lib"
    llvm("llvm-ar", "rcs", by_ar, *job.files())
    llvm("llvm-lib", f"/out:{by_lib}", *job.files())
    archives = {"llvm-ar": by_ar, "llvm-lib": by_lib}
    images = [(maker, job.link(maker, program, archive)) for maker, archive in archives.items()]
    return sum(job.compare(f"{job.machine}, {maker}, lld-link", image) for maker, image in images)


def same_symbols(job):
    """The symbols that `show` gives each member of a list are those that LLVM gives it in an archive's map."""
    archive = job.folder / "map.lib"
    llvm("llvm-ar", "rcs", archive, *job.files())
    lines = llvm("llvm-nm", "--print-armap", archive).stdout.splitlines()
    theirs = {tuple(line.split(" in ")) for line in lines if " in " in line and "-list1-" in line}
    numbered = zip(job.files(), job.shown, strict=True)
    ours = {(symbol["symbol"], file.name) for file, member in numbered for symbol in member["symbols"]}
    if ours != theirs:
        raise Differs(f"{job.machine}: show and llvm-nm differ in {sorted(ours ^ theirs)}")
    print(f"  {job.machine}, llvm-ar: show and llvm-nm give the members the same {len(ours)} symbols")


def not_linked(job):
    """A symbol that leads nowhere, and one that no member defines, are not linked."""
    for symbol in job.lost:
        led = job.lookup(symbol)
        program = job.object("stranger", programs.idle(job.entry, [symbol], job.word))
        try:
            job.link("stranger", program, job.folder / "ar.lib")
        except Differs as refused:
            if "undefined symbol" not in str(refused):
                raise
        else:
            raise Differs(f"{job.machine}: lld-link links {symbol}, and lookup says {led}")
        print(f"  {job.machine}, lld-link: {symbol}, {led}, is not linked")


def one_name(job):
    """An archive whose members all have one name, as GNU ld wants them."""
    files = []
    for file in job.files():
        folder = job.folder / f"one-{file.stem[:5]}"
        folder.mkdir()
        files.append(shutil.copy(file, folder / "att.dll"))
    archive = job.folder / "one.a"
    llvm("llvm-ar", "qcs", archive, *files)
    return archive


def with_gnu(job):
    """GNU ld, which takes imports by name and by ordinal, of code and of data."""
    program = job.program()
    numbered, image = job.folder / "numbered.a", job.folder / "gnu.exe"
    linked = [GNU[job.machine], "--subsystem", "console", "-e", job.entry, "-o", image, program]
    run(*linked, one_name(job))
    symbols = job.compare(f"{job.machine}, one name for all, GNU ld", image)
    llvm("llvm-ar", "qcs", numbered, *job.files())
    run(*linked, numbered)
    entries = len(Image(image.read_bytes()).imports())
    print(f"  seen: {job.machine}, numbered names, GNU ld: linked with {entries} import table entries")
    return symbols


def seen(folder):
    """Prints what linkers do with what README.md says they do not take."""
    step, go = lists.export("att_step"), lists.export("att_go", import_name="att_step")
    for what, symbol, exports in (
        ("constant", "__imp_att_step", [lists.export("att_step", "constant")]),
        ("EXPORTAS", "__imp_att_step", [lists.export("att_step", export_as="att_far")]),
        ("alias", "att_go", [step, go]),
    ):
        job = Job(folder / what, "amd64", (b"att.dll", exports))
        program = job.object("program", programs.idle(job.entry, [symbol], job.word))
        linked = run(GNU["amd64"], "-e", job.entry, "-o", folder / "seen.exe", program, one_name(job), check=False)
        print(f"  seen: amd64, {what}, GNU ld: status {linked.returncode}")
    job = Job(folder / "arm64ec", "arm64ec", (b"att.dll", [step]))
    same_symbols(job)
    try:
        job.link("seen", job.program(), job.folder / "map.lib")
    except Differs as refused:
        print(f"  seen: arm64ec, lld-link: {str(refused).splitlines()[0].rpartition('error: ')[2]}")


def run_program(job, wine):
    """Links a DLL with the entries and a program that uses each, and runs it."""
    kinds = {}
    for member in job.shown:
        if member["layout"] == "short import":
            kinds[job.wanted[member["symbols"][0]["symbol"]]] = member["kind"]
    values = {entry: 100 + index for index, entry in enumerate(kinds)}
    assembly, definitions = programs.library(kinds, values)
    (job.folder / "att.def").write_text(definitions)
    made = job.object("library", assembly)
    dll = [f"/def:{job.folder / 'att.def'}", f"/out:{job.folder / 'att.dll'}", made]
    llvm("lld-link", "/dll", "/noentry", "/nodefaultlib", "/machine:x64", *dll)
    # A constant's own symbol is the slot too, so both read through it.
    wanted = {symbol: (entry, kinds[entry]) for symbol, entry in job.wanted.items()}
    program = job.object("running", programs.running(wanted, values))
    image = job.link("running", program, job.folder / "ar.lib")
    job.compare("amd64, the program that is run", image)
    os.environ.update(WINEPREFIX=str(job.folder / "wine"), WINEDEBUG="-all", DISPLAY="")
    status = run(wine, image, check=False).returncode
    # The server of this prefix would still write into a folder that goes.
    server = Path(wine).resolve().with_name("wineserver64")
    if server.exists():
        run(server, "-k", check=False)
    if status != programs.GOOD:
        raise Differs(f"wine: the program says {status}, and {programs.GOOD} is good")
    print(f"  wine: the program uses {len(wanted)} symbols and finds each entry's value")


def gnu_exports(exports):
    """What GNU ld takes of the exports."""
    dll, first, native = exports
    named = [export for export in first if not any(key in export for key in NOT_FOR_GNU)]
    return dll, [export for export in named if "constant" not in export["flags"]], native


def main():
    """Links on each machine, and says how it went in one line."""
    symbols = images = 0
    wine = shutil.which("wine64") or shutil.which("/usr/lib/wine/wine64")
    with tempfile.TemporaryDirectory() as folder:
        for machine, source in SOURCES.items():
            exports = lists.parse(source.read_text())
            job = Job(Path(folder) / machine, machine, exports)
            symbols, images = symbols + with_lld(job), images + 2
            same_symbols(job)
            not_linked(job)
            if machine == "amd64" and wine:
                run_program(job, wine)
            if machine in GNU and shutil.which(GNU[machine]):
                gnu = Job(Path(folder) / f"{machine}-gnu", machine, gnu_exports(exports))
                symbols, images = symbols + with_gnu(gnu), images + 1
        if shutil.which(GNU["amd64"]):
            seen(Path(folder))
    print(f"{symbols} symbols in {images} images lead where lookup says")


if __name__ == "__main__":
    told(main)
