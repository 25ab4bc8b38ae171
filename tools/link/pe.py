"""A linked image: its sections and its import table, by the records of the PE Format document."""

import struct

PE_OFFSET_AT = 0x3C
FILE_HEADER_SIZE = 20
SECTION_SIZE = 40
PE32_PLUS = 0x20B
IMPORT_TABLE = 1
DESCRIPTOR = struct.Struct("<5I")


class Image:
    """A PE32 or PE32+ image."""

    def __init__(self, data):
        self.data = data
        header = struct.unpack_from("<I", data, PE_OFFSET_AT)[0]
        assert data[header : header + 4] == b"PE\0\0", "no image"
        self.machine, sections = struct.unpack_from("<2H", data, header + 4)
        optional_size = struct.unpack_from("<H", data, header + 4 + 16)[0]
        optional = header + 4 + FILE_HEADER_SIZE
        self.is_64_bit = struct.unpack_from("<H", data, optional)[0] == PE32_PLUS
        self.word = struct.Struct("<Q" if self.is_64_bit else "<I")
        self.base = self.word.unpack_from(data, optional + (24 if self.is_64_bit else 28))[0]
        directories = optional + (112 if self.is_64_bit else 96)
        self.imports_at = struct.unpack_from("<I", data, directories + 8 * IMPORT_TABLE)[0]
        self.sections = {}
        for index in range(sections):
            at = optional + optional_size + SECTION_SIZE * index
            name = data[at : at + 8].rstrip(b"\0").decode()
            _, address, raw_size, raw_at = struct.unpack_from("<4I", data, at + 8)
            self.sections[name] = (address, raw_size, raw_at)

    def at(self, rva):
        """The place in the file of a relative virtual address."""
        for address, size, place in self.sections.values():
            if address <= rva < address + size:
                return place + rva - address
        raise ValueError(f"no section has {rva:#x}")

    def read(self, layout, rva):
        """The numbers at an address."""
        return struct.unpack_from(layout, self.data, self.at(rva))

    def string(self, rva):
        """The bytes at an address, up to a NUL."""
        start = self.at(rva)
        return self.data[start : self.data.index(b"\0", start)]

    def words(self, rva):
        """The words from an address on, up to a zero one, each with its address."""
        while True:
            word = self.word.unpack_from(self.data, self.at(rva))[0]
            if word == 0:
                return
            yield rva, word
            rva += self.word.size

    def imports(self):
        """The DLL and entry of each slot of the import address table: `name ..` or `ordinal ..`."""
        slots = {}
        by_ordinal = 1 << (8 * self.word.size - 1)
        rva = self.imports_at
        while rva:
            lookup, _, _, name, addresses = DESCRIPTOR.unpack_from(self.data, self.at(rva))
            if not name:
                break
            dll = self.string(name).decode()
            for index, (_, word) in enumerate(self.words(lookup)):
                is_ordinal = word & by_ordinal
                entry = f"ordinal {word & 0xFFFF}" if is_ordinal else f"name {self.string(word + 2).decode()}"
                slots[addresses + self.word.size * index] = (dll, entry)
            rva += DESCRIPTOR.size
        return slots

    def slot(self, rva, slots):
        """The slot that an address is, or through which the code at it jumps."""
        if rva in slots:
            return rva
        if self.machine in (0x8664, 0x014C):
            opcode, target = self.read("<HI", rva)
            assert opcode == 0x25FF, f"no jump through memory at {rva:#x}"
            return (rva + 6 + target) & 0xFFFFFFFF if self.is_64_bit else target - self.base
        adrp, load, branch = self.read("<3I", rva)
        assert adrp & 0x9F00001F == 0x90000010 and load & 0xFFC003FF == 0xF9400210 and branch == 0xD61F0200
        pages = (adrp >> 5 & 0x7FFFF) << 2 | adrp >> 29 & 3
        pages -= (pages & 1 << 20) << 1
        return (rva & ~0xFFF) + (pages << 12) + (load >> 10 & 0xFFF) * 8
