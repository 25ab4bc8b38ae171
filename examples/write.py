"""Does what write.c does, through a shared object that the first word names."""

import ctypes
import struct
import sys

MACHINE_AMD64 = 0x8664
NAMES = b"att.dllatt_step"

SLOTS = 8192


class Slot(ctypes.Structure):
    _fields_ = [("state", ctypes.c_uint32), ("hash", ctypes.c_uint32), ("record", ctypes.c_uint32)]


ASKED = [ctypes.c_char_p, ctypes.c_size_t, ctypes.c_uint32, ctypes.c_bool, ctypes.c_bool]
LENT = [ctypes.POINTER(Slot), ctypes.c_size_t, ctypes.c_char_p, ctypes.c_size_t]

library = ctypes.CDLL(sys.argv[1])
library.crepedum_total.restype = ctypes.c_uint64
library.crepedum_total.argtypes = ASKED
library.crepedum_write.restype = ctypes.c_uint64
library.crepedum_write.argtypes = ASKED + LENT


def make_list():
    """One record in the first list, none in the native one."""
    header = struct.pack("<7I", 1, 0, 28, 28 + 44, len(NAMES), 0, 7)
    record = struct.pack("<10I2H", 7, 8, 0, 0, 0, 0, 0, 0, 0, 0, 5, 0)
    return header + record + NAMES


listed = make_list()
asked = (listed, len(listed), MACHINE_AMD64, False, False)
number, total = divmod(library.crepedum_total(*asked), 1 << 32)
assert number == 0
print("total", total)
slots = (Slot * SLOTS)()
out = ctypes.create_string_buffer(total)
number, place = divmod(library.crepedum_write(*asked, slots, SLOTS, out, total - 1), 1 << 32)
print(f"one byte less: refusal {number}, place {place}")
number, place = divmod(library.crepedum_write(*asked, slots, SLOTS - 1, out, total), 1 << 32)
print(f"one slot less: refusal {number}, place {place}")
assert library.crepedum_write(*asked, slots, SLOTS, out, total) == total
print("header", out.raw[:16].hex(" "))
print("import", out.raw[total - 37 :].hex(" "))
