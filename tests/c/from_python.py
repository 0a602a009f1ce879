#!/usr/bin/env python3
"""Builds Map A, and looks two blocks up in it, through the shared library: tests/c/from_python.py LIBRARY. Then once
more as a sheet, through sheet_for_python.so beside the library, which tests/c/installed makes of sheet_for_python.c."""
import ctypes
import re
import sys
from pathlib import Path


class Counted(ctypes.Structure):
    _fields_ = [("refusal", ctypes.c_uint64), ("count", ctypes.c_uint64)]


class Stands(ctypes.Structure):
    _fields_ = [(name, ctypes.c_uint64) for name in ("refusal", "kind", "place", "records", "leaf", "level")]


library = ctypes.CDLL(sys.argv[1])
build = library.hlq_build
build.restype = Counted
slice_of_numbers = [ctypes.POINTER(ctypes.c_uint32), ctypes.c_size_t]
build.argtypes = [ctypes.c_uint32, ctypes.c_uint32, ctypes.c_char_p, ctypes.c_size_t, *slice_of_numbers * 3]

raster = bytes([0, 0, 1, 1, 0, 0, 1, 2, 2, 2, 0, 0, 2, 2, 0, 0])
keys, bits, summary = (ctypes.c_uint32 * 21)(), (ctypes.c_uint32 * 21)(), (ctypes.c_uint32 * 48)()
built = build(2, 3, raster, len(raster), keys, 21, bits, 21, summary, 48)
records = list(zip(keys, bits))[:built.count]
map_a = [(0, 7), (5, 1), (10, 6), (11, 2), (12, 2), (13, 2), (14, 4), (15, 4), (20, 1)]
if built.refusal != 0 or records != map_a:
    sys.exit(f"FAILED: Map A from Python: refusal {built.refusal}, records {records}")
print(f"from Python: Map A has {built.count} records")

standing = library.hlq_standing
standing.restype = Stands
standing.argtypes = [ctypes.c_uint32, ctypes.c_uint32, *slice_of_numbers * 2, ctypes.c_size_t, ctypes.c_uint32]
for key, expected in ((10, [0, 1, 2, 5, 0, 0]), (6, [0, 2, 1, 0, 5, 1])):
    stands = standing(2, 3, keys, 21, bits, 21, built.count, key)
    numbers = [getattr(stands, name) for name, kind in Stands._fields_]
    if numbers != expected:
        sys.exit(f"FAILED: where block {key} stands, from Python: {numbers}")
print("from Python: blocks 20 and 11 stand where they should")


class Keyed(ctypes.Structure):
    _fields_ = [("refusal", ctypes.c_uint64), ("key", ctypes.c_uint64)]


class Window(ctypes.Structure):
    _fields_ = [(name, ctypes.c_uint32) for name in ("row", "column", "height", "width")]


class Sheet(ctypes.Structure):
    _fields_ = [("m", ctypes.c_uint32), ("s", ctypes.c_uint32), *((name, ctypes.POINTER(ctypes.c_uint32))
                for name in ("keys", "bits")), ("room", ctypes.c_size_t), ("n", ctypes.c_size_t),
                ("summary", ctypes.POINTER(ctypes.c_uint32)), ("summary_room", ctypes.c_size_t),
                *((name, ctypes.POINTER(ctypes.c_uint32)) for name in ("log_keys", "log_values")),
                *((name, ctypes.c_size_t) for name in ("log_room", "used", "in_force"))]


def must(what, got, expected):
    if got != expected:
        sys.exit(f"FAILED: {what}, from Python: {got}, not {expected}")


header = (Path(__file__).resolve().parents[2] / "include/prowcurl.h").read_text()
library.hlq_interface.restype = ctypes.c_uint32
must("the interface", library.hlq_interface(), int(re.search(r"#define HLQ_INTERFACE (\d+)", header).group(1)))
library.hlq_key_at.restype = Keyed
pixel = library.hlq_key_at(2, 1, 2, 2)
must("the key of row 1, column 2", (pixel.refusal, pixel.key), (0, 13))

sheets = ctypes.CDLL(str(Path(sys.argv[1]).resolve().with_name("sheet_for_python.so")))
sheets.sheet_bytes.argtypes = [ctypes.c_uint32, ctypes.c_uint32, ctypes.c_size_t]
sheets.sheet_bytes.restype = ctypes.c_size_t
sheets.sheet_in.argtypes = [ctypes.c_void_p, ctypes.c_size_t, ctypes.c_uint32, ctypes.c_uint32, ctypes.c_size_t,
                            ctypes.POINTER(Sheet)]
sheets.sheet_build.argtypes = [ctypes.POINTER(Sheet), ctypes.c_char_p, ctypes.c_size_t]
sheets.sheet_area.argtypes = [ctypes.POINTER(Sheet), Window, ctypes.c_uint32, ctypes.POINTER(ctypes.c_uint64)]
sheets.sheet_paint.argtypes = [ctypes.POINTER(Sheet), ctypes.c_uint32, ctypes.c_uint32]
sheets.sheet_take_back.argtypes = [ctypes.POINTER(Sheet)]
sheets.key_read.argtypes = [ctypes.c_uint32, ctypes.c_char_p, ctypes.POINTER(ctypes.c_uint32)]

needed = sheets.sheet_bytes(2, 3, 8)
memory = (ctypes.c_uint32 * (needed // 4))()
sheet, pixels, key = Sheet(), ctypes.c_uint64(), ctypes.c_uint32()
must("a byte too few", sheets.sheet_in(memory, needed - 1, 2, 3, 8, sheet), 9)
must("a sheet", sheets.sheet_in(memory, needed, 2, 3, 8, sheet), 0)
must("its build", sheets.sheet_build(sheet, raster, len(raster)), 0)
must("its list", list(zip(sheet.keys[:sheet.n], sheet.bits[:sheet.n])), map_a)
must("a key", (sheets.key_read(2, b"24", key), key.value), (0, 14))
must("a paint", (sheets.sheet_paint(sheet, key, 1), sheet.n, sheet.used, sheet.in_force), (0, 5, 3, 3))
must("a refused paint", (sheets.sheet_paint(sheet, key, 3), sheet.n, sheet.used, sheet.in_force), (7, 5, 3, 3))
must("an area", (sheets.sheet_area(sheet, Window(0, 0, 4, 4), 1, pixels), pixels.value), (0, 4))
must("a paint taken back", (sheets.sheet_take_back(sheet), sheet.n, sheet.used, sheet.in_force), (0, 9, 3, 0))
print("from Python: a sheet of Map A is built, painted and taken back")
