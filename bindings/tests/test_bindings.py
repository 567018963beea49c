"""The Python and the Rust binding say what the header's text says: structs, functions, refusals with their causes, limits and version.

    python3 -B -m unittest discover -s bindings/tests

Nothing is built for this.
"""

import ctypes
import re
import sys
import unittest
from pathlib import Path

BINDINGS = Path(__file__).resolve().parents[1]
sys.path.insert(0, str(BINDINGS / "python"))
import laurelsnap  # noqa: E402
from laurelsnap import bpt, library, refusal, task  # noqa: E402

RUST = "".join((BINDINGS / "rust" / "src" / f"{name}.rs").read_text() for name in ("lib", "ffi", "refusal", "search", "states", "plan"))
HEADER = (BINDINGS.parent / "include" / "laurelsnap.h").read_text()
CODE = re.sub(r"/\*.*?\*/", "", HEADER, flags=re.S)

# a type of the header in Rust and in Python
TYPES = {"const uint8_t *": ("*const u8", ctypes.c_char_p), "uint8_t *": ("*mut u8", ctypes.c_void_p),
         "const uint32_t *": ("*const u32", ctypes.c_void_p), "uint32_t *": ("*mut u32", ctypes.c_void_p),
         "uint64_t *": ("*mut u64", ctypes.c_void_p), "uint16_t *": ("*mut u16", ctypes.c_void_p), "size_t": ("usize", ctypes.c_size_t)}
STRUCTS = {"answer": ("Answer", library.Answer), "found": ("Report", library.Found), "place": ("Standing", library.Place),
           "listed": ("Tally", library.Listed)}


def rust_fields(name):
    """The fields of a struct, with those of a struct in it in its place."""
    body = re.search(rf"#\[repr\(C\)\]\npub struct {name} \{{(.*?)\n\}}", RUST, re.S)[1]
    out = []
    for field, kind in re.findall(r"pub (\w+): (\w+),", body):
        out += [field] if kind == "u64" else rust_fields(kind)
    return out


def functions():
    """The library's functions: the result's struct, the name, and type and name of each parameter."""
    for result, name, given in re.findall(r"^struct laurelsnap_(\w+) (laurelsnap_\w+)\(([^)]*)\);", CODE, re.M | re.S):
        yield result, name, [re.fullmatch(r"\s*(.*?[ *])(\w+)\s*", parameter, re.S).groups() for parameter in given.split(",")]


class Bindings(unittest.TestCase):
    def test_structs(self):
        for name, (rust, python) in STRUCTS.items():
            body = re.search(rf"struct laurelsnap_{name} \{{(.*?)\}};", CODE, re.S)[1]
            fields = re.findall(r"uint64_t (\w+);", body)
            self.assertGreaterEqual(len(fields), 3)
            self.assertEqual(body.count(";"), len(fields))
            self.assertEqual([field for field, _ in python._fields_], fields)
            self.assertEqual({kind for _, kind in python._fields_}, {ctypes.c_uint64})
            self.assertEqual(rust_fields(rust), fields)

    def test_functions(self):
        found = list(functions())
        self.assertEqual([name for _, name, _ in found], list(library.FUNCTIONS))
        self.assertEqual(len(found), 6)
        for result, name, given in found:
            kinds = [TYPES[kind.strip()] for kind, _ in given]
            answer, arguments = library.FUNCTIONS[name]
            self.assertEqual(answer, STRUCTS[result][1])
            self.assertEqual(arguments, [python for _, python in kinds], name)
            told = re.search(rf"pub fn {name}\((.*?)\) -> (\w+);", RUST, re.S)
            self.assertEqual(told[2], STRUCTS[result][0])
            parameters = re.findall(r"(\w+): (\*(?:const|mut) \w+|usize)", told[1])
            self.assertEqual(parameters, [(parameter, rust) for (_, parameter), (rust, _) in zip(given, kinds)], name)

    def test_refusals(self):
        enum = re.search(r"enum laurelsnap_refusal \{(.*?)\}", CODE, re.S)[1]
        numbers = {name: int(number) for name, number in re.findall(r"LAURELSNAP_(\w+) = (\d+)", enum)}
        self.assertEqual(numbers.pop("OK"), 0)
        self.assertEqual({r.name: r.value for r in refusal.Refusal}, numbers)
        self.assertEqual({name: int(number) for name, number in re.findall(r"pub const (\w+): u64 = (\d+);", RUST)}, numbers)

    def test_causes(self):
        told = dict(re.findall(r'case LAURELSNAP_(\w+): return "(.*?)";', CODE))
        self.assertEqual(told.pop("OK"), "no refusal")
        self.assertEqual({r.name: r.cause for r in refusal.Refusal}, told)
        self.assertEqual(dict(re.findall(r'Refusal::(\w+) => "(.*?)",', RUST)), told)

    def test_limits(self):
        limits = {name: int(number) for name, number in re.findall(r"#define LAURELSNAP_(\w+) (\d+)", CODE)}
        self.assertEqual(limits, {
            "FILE_MOST": bpt.FILE_MOST, "VARIABLES_MOST": task.VARIABLES_MOST, "VALUES_MOST": task.VALUES_MOST, "BITS_MOST": task.BITS_MOST,
            "OPERATORS_MOST": task.OPERATORS_MOST, "TERMS_MOST": task.TERMS_MOST, "BOUND_MOST": task.BOUND_MOST, "LIST_MOST": laurelsnap.MOST,
            "CANONICAL_MOST": bpt.HEADER + bpt.VARIABLE_BYTES * task.VARIABLES_MOST + bpt.OPERATOR_BYTES * task.OPERATORS_MOST
            + bpt.TERM_BYTES * task.TERMS_MOST})
        self.assertEqual(task.COST_MOST, task.BOUND_MOST)
        told = {name: int(number.replace("_", "")) for name, number in re.findall(r"pub const (\w+): usize = ([\d_]+);", RUST)}
        self.assertEqual(told, {name: limits[name] for name in ("FILE_MOST", "CANONICAL_MOST", "LIST_MOST")})

    def test_version(self):
        version = re.search(r'#define LAURELSNAP_VERSION "(.*?)"', CODE)[1]
        self.assertEqual(laurelsnap.__version__, version)
        self.assertIn(f'\nversion = "{version}"\n', (BINDINGS / "rust" / "Cargo.toml").read_text())


if __name__ == "__main__":
    unittest.main()
