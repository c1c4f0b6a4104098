"""The structs and calls of include/tiedraw.h stand in both bindings as they stand there, so that their layouts are the same."""

import ctypes
import pathlib
import re
import unittest

from tiedraw import _library

ROOT = pathlib.Path(__file__).resolve().parents[2]
HEADER = re.sub(r"/\*.*?\*/", "", (ROOT / "include/tiedraw.h").read_text(encoding="utf-8"), flags=re.DOTALL)
FFI = (ROOT / "bindings/rust/src/ffi.rs").read_text(encoding="utf-8")

BOUNDS = {"MOST_WORDS": 8, "TABLE_SIZE": 256, "MOST_SHOVELS": 64, "MOST_BAD_PLACES": 128}
RUST = {"uint8_t": "u8", "uint16_t": "u16", "uint32_t": "u32", "int32_t": "i32", "size_t": "usize"}
CTYPES = {
    "uint8_t": ctypes.c_uint8,
    "uint16_t": ctypes.c_uint16,
    "uint32_t": ctypes.c_uint32,
    "int32_t": ctypes.c_int32,
    "size_t": ctypes.c_size_t,
}
# in Python, where those are what a caller gets
OTHER_NAMES = {"Choice": "Chosen", "Record": "RecordFields", "BitCounts": "Counted"}


def named(kind):
    """tiedraw_margin_answer as MarginAnswer."""
    return "".join(word.capitalize() for word in kind.split("_")[1:])


def structs():
    """Of each struct of the header its name, and of each field name, type, and bound where it is an array."""
    for body, name in re.findall(r"typedef struct (?:\w+ )?\{(.*?)\} (\w+);", HEADER, re.DOTALL):
        rows = re.findall(r"(\w+) ([^;]+);", body)
        fields = [(kind, re.findall(r"(\w+)(?:\[TIEDRAW_(\w+)\])?", names)) for kind, names in rows]
        yield name, [(field, kind, bound) for kind, names in fields for field, bound in names]


def calls():
    """Of each function of the header its answer and name, and of each parameter type, star if it points, and name."""
    for answer, name, parameters in re.findall(r"^(\w+) (tiedraw_\w+)\(([^)]*)\);", HEADER, re.MULTILINE):
        yield answer, name, re.findall(r"((?:const )?\w+) (\*?)(\w+)(?:,|$)", parameters)


def rust_kind(kind, bound=""):
    kind = RUST.get(kind) or named(kind)
    return f"[{kind}; {bound}]" if bound else kind


def rust_parameter(kind, star, name):
    pointer = {"": "", "*": "*const " if kind.startswith("const ") else "*mut "}[star]
    return f"{name}: {pointer}{rust_kind(kind.replace('const ', ''))}"


def python_kind(kind, bound=""):
    kind = CTYPES.get(kind) or getattr(_library, OTHER_NAMES.get(named(kind), named(kind)))
    return kind * BOUNDS[bound] if bound else kind


def python_parameter(kind, star, _):
    kind = python_kind(kind.replace("const ", ""))
    return ctypes.POINTER(kind) if star else kind


class Header(unittest.TestCase):
    def same(self, found, wanted):
        self.assertTrue(wanted)
        self.assertEqual(found, wanted)

    def test_the_structs_in_rust(self):
        bodies = re.findall(r"#\[repr\(C\)\]\npub struct (\w+) \{(.*?)\n\}", FFI, re.DOTALL)
        found = {name: re.findall(r"pub (\w+): ([^,]+),", body) for name, body in bodies}
        self.same(found, {named(name): [(field, rust_kind(*kind)) for field, *kind in fields] for name, fields in structs()})

    def test_the_structs_in_python(self):
        for name, fields in structs():
            self.same(python_kind(name)._fields_, [(field, python_kind(*kind)) for field, *kind in fields])

    def test_the_calls_in_rust(self):
        heads = re.findall(r"pub fn (\w+)\(([^)]*)\)\s*-> (\w+);", FFI)
        found = {name: (re.findall(r"\w+: [^,\n]+", parameters), answer) for name, parameters, answer in heads}
        self.same(found, {name: ([rust_parameter(*each) for each in more], rust_kind(answer)) for answer, name, more in calls()})

    def test_the_calls_in_python(self):
        for answer, name, parameters in calls():
            if name != "tiedraw_version":
                call = getattr(_library, name.replace("tiedraw_", "", 1))
                wanted = python_kind(answer), [python_parameter(*each) for each in parameters]
                self.same((call.restype, list(call.argtypes)), wanted)


if __name__ == "__main__":
    unittest.main()
