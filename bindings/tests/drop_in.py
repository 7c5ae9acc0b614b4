"""Runs the test suite of the package `bitarray`, which has to be installed, against `fehimbary.bitarray` in its place.

`drop_in.py` fails unless the tests that don't pass are those of OTHERS and those that ask for the module's name in the text of a
type; these are run again with this package's name, and then have to pass. `drop_in.py NAME..` shows why single tests fail."""

import importlib.util
import pathlib
import struct
import sys
import unittest

import fehimbary.bitarray
import fehimbary.bitarray.util

FOLDER = pathlib.Path(importlib.util.find_spec("bitarray").origin).parent
# The tests that don't pass, by what they ask for.
OTHERS = {
    "the text of an error": {"BytesTests.test_frombytes_self", "BytesTests.test_pack_self", "FileTests.test_mmap_readonly",
                             "BufferImportTests.test_bitarray"},
    "fill of bits that have views": {"MethodTests.test_fill_exported", "BufferExportTests.test_resize"},
    "sizes without what the collector keeps": {"SpecialMethodTests.test_sizeof"},
    "a private method": {"TestsFrozenbitarray.test_freeze"},
    "a frozenbitarray that has others' memory": {"TestsFrozenbitarray.test_buffer_import_readonly"},
}  # fmt: skip


def system():
    """Sizes and settings that the suite asks for: none of debugging."""
    size = struct.calcsize("P")
    return size, size, sys.getsizeof(fehimbary.bitarray.bitarray()), 1, 1, 1, 0, int(sys.byteorder == "little")


def loaded(name):
    """A module of the suite, which gets this package where it asks for `bitarray`."""
    spec = importlib.util.spec_from_file_location(f"bitarray.{name}", FOLDER / f"{name}.py")
    module = importlib.util.module_from_spec(spec)
    sys.modules[spec.name] = module
    spec.loader.exec_module(module)
    return module


def failures(module, names=()):
    """How many tests there are, of all or of those of these names, and the texts of those that fail, by their short names."""
    found = [it for case in module.tests for it in unittest.defaultTestLoader.loadTestsFromTestCase(case)]
    short = {it.id(): ".".join(it.id().split(".")[-2:]) for it in found}
    suite = unittest.TestSuite(it for it in found if not names or short[it.id()] in names)
    result = unittest.TestResult()
    suite.run(result)
    return result.testsRun, {short[it.id()]: text for it, text in result.failures + result.errors}


def is_named(test, value, name):
    """In place of the suite's `assertIsType`: whether a type is this package's of a name."""
    test.assertEqual(type(value).__name__, name)
    test.assertTrue(type(value).__module__.startswith("fehimbary"))


def compare(module, label):
    """Prints how many tests pass, and gives those that fail otherwise than they are expected to."""
    number, failed = failures(module)
    print(f"{label}: {number - len(failed)} of {number} tests of bitarray pass")
    own, module.Util.assertIsType = module.Util.assertIsType, is_named
    _, left = failures(module, failed)
    module.Util.assertIsType = own
    print(f"{label}: {len(failed) - len(left)} more pass with the name of this package in the texts of types")
    return {name: text for name, text in left.items() if not any(name in them for them in OTHERS.values())}


def main(names):
    fehimbary.bitarray._sysinfo = system
    sys.modules["bitarray"], sys.modules["bitarray.util"] = fehimbary.bitarray, fehimbary.bitarray.util
    for label in "test_bitarray", "test_util":
        module = loaded(label)
        for name, text in (failures(module, names)[1] if names else compare(module, label)).items():
            raise SystemExit(f"{label}: {name} fails:\n{text}")


main(sys.argv[1:])
