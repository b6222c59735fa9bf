"""The module beside the header, the library and the original's answers.

python3 -m unittest runs it in this folder, with GORBIHESH_LIBRARY where the library is not in target/lib."""

from __future__ import annotations

import doctest
import math
import os
import pickle
import re
import struct
import subprocess
import sys
import tempfile
import unittest
from collections.abc import Iterator
from pathlib import Path

import gorbihesh
from gorbihesh import Analyzer, FullList, List, Operator, Record, Refusal, Refused, Setup, Unfit

HERE = Path(__file__).resolve().parent
TOP = HERE.parents[1]
HEADER = (TOP / "include" / "gorbihesh.h").read_text()

SIMPLE = Setup("f", Analyzer.SIMPLE)
TERM = bytes.fromhex("0100081000016611000161")  # f:a, as document 01 stores it
MATCH_ALL = bytes.fromhex("060000")


def load_tests(_loader: unittest.TestLoader, tests: unittest.TestSuite, _pattern: str | None) -> unittest.TestSuite:
    tests.addTest(doctest.DocFileSuite(str(HERE / "README.md"), module_relative=False))
    return tests


def cases(name: str) -> Iterator[list[str]]:
    """The columns of each line of a fixed list."""
    for line in (TOP / "tests" / "original" / "lists" / name).read_text().splitlines():
        if not line.startswith("#"):
            yield line.split(" ")


def unhex(digits: str) -> bytes:
    return b"" if digits == "-" else bytes.fromhex(digits)


def between(tag: str, field: str, lower: bytes, upper: bytes) -> bytes:
    """A range with both bounds inside, as document 01 stores it."""
    parts = [("10", field.encode()), ("31", lower), ("31", upper)]
    body = b"".join(bytes.fromhex(of) + len(part).to_bytes(2, "big") + part for of, part in parts)
    return bytes.fromhex(tag) + len(body).to_bytes(2, "big") + body


def members(enum: str) -> dict[str, int]:
    body = re.search(rf"enum {enum} \{{(.*?)\}};", HEADER, re.S)
    assert body is not None
    return {name: int(number, 0) for name, number in re.findall(r"GORBIHESH_(\w+) = (\w+)", body[1])}


class FixedLists(unittest.TestCase):
    """The original's answers, as tests/original keeps them."""

    def parsing(self, name: str, least: int) -> None:
        count = 0
        for operator, analyzer, field, fields, text, refusal, stored in cases(name):
            setup = raw_setup(int(operator), int(analyzer), unhex(field), unhex(fields))
            answer = refused = None
            try:
                answer = gorbihesh.parse(unhex(text), setup)
            except Refused as fault:
                refused = fault.number
            expected = (None, int(refusal)) if int(refusal) else (unhex(stored), None)
            self.assertEqual((answer, refused), expected, text)
            count += 1
        self.assertGreater(count, least)

    def test_parse(self) -> None:
        self.parsing("parse.txt", 3000)

    def test_document(self) -> None:
        self.parsing("document.txt", 200)

    def test_rewrite(self) -> None:
        count = 0
        for query, rounds, rewritten in cases("rewrite.txt"):
            self.assertEqual(gorbihesh.rewrite(unhex(query)), (unhex(rewritten), int(rounds)), query)
            count += 1
        self.assertGreater(count, 1000)


def raw_setup(operator: int, analyzer: int, field: bytes, fields: bytes) -> Setup:
    """The lists have numbers that are no operator, and entries that a mapping cannot hold: they are lent as they are."""

    class Raw(Setup):
        def _entries(self) -> bytes:
            return fields

    return Raw(field, analyzer, {}, operator)  # type: ignore[arg-type]


class BesideTheHeader(unittest.TestCase):
    def test_version(self) -> None:
        defined = re.search(r'GORBIHESH_VERSION_STRING "(.*)"', HEADER)
        assert defined is not None
        self.assertEqual(gorbihesh.__version__, defined[1])
        self.assertEqual(gorbihesh.version(), defined[1])

    def test_limits(self) -> None:
        limits = dict(re.findall(r"#define GORBIHESH_(\w+_MOST) (\d+)", HEADER))
        own = {name: str(value) for name, value in vars(gorbihesh).items() if name.endswith("_MOST")}
        self.assertEqual(own, limits)

    def test_numbers(self) -> None:
        refusals = members("gorbihesh_refusal")
        self.assertEqual(refusals.pop("DONE"), 0)
        self.assertEqual(dict(Refusal.__members__), refusals)
        self.assertEqual(dict(Operator.__members__), members("gorbihesh_operator"))
        self.assertEqual(dict(Analyzer.__members__), members("gorbihesh_analyzer"))
        tags = members("gorbihesh_tag")
        self.assertEqual({tag: tags[f"{tag.name}_TAG"] for tag in gorbihesh._Tag}, {tag: tag for tag in gorbihesh._Tag})

    def test_words(self) -> None:
        said = [gorbihesh.words(number) for number in (0, 99, *Refusal)]
        self.assertEqual(len(set(said)), len(Refusal) + 2)


class Calls(unittest.TestCase):
    def refuses(self, refusal: int, text: gorbihesh.Text, setup: Setup = SIMPLE, place: int = 0) -> None:
        with self.assertRaises(Refused) as raised:
            gorbihesh.parse(text, setup)
        self.assertEqual((raised.exception.number, raised.exception.place), (refusal, place))
        self.assertEqual(str(raised.exception), gorbihesh.words(refusal))

    def test_setup(self) -> None:
        self.assertEqual(gorbihesh.parse("a", SIMPLE), TERM)
        both = Setup("f", Analyzer.SIMPLE, operator=Operator.AND)
        self.assertEqual(gorbihesh.parse("a b", both), gorbihesh.parse(b"+a +b", SIMPLE))
        keyword = Setup("f", Analyzer.SIMPLE, fields={"f": Analyzer.KEYWORD})
        self.assertEqual(gorbihesh.parse("A1", keyword), gorbihesh.parse("A1", Setup(b"f", Analyzer.KEYWORD)))

    def test_refusals(self) -> None:
        self.refuses(Refusal.LONG_TEXT, "a" * (gorbihesh.TEXT_MOST + 1))
        self.refuses(Refusal.OPEN_QUOTE, '"a')
        self.refuses(Refusal.OPEN_QUOTE, 'a "a', place=2)
        self.refuses(Refusal.UNEXPECTED_END, "a AND", place=5)
        texts: list[gorbihesh.Text] = ["caf\u00e9", b"caf\xe9", "caf\udce9", "\ud800"]
        for text in texts:
            self.refuses(Refusal.NOT_ASCII, text)
        for length in (33, 255, 256, 256 + 32):
            self.refuses(Refusal.BAD_SETUP, "a", Setup("n" * length, Analyzer.SIMPLE))
            self.refuses(Refusal.BAD_SETUP, "a", Setup("f", Analyzer.SIMPLE, {"n" * length: Analyzer.SIMPLE}))

    def test_a_number_of_a_later_release(self) -> None:
        self.assertEqual(Refused(99).number, 99)

    def test_a_refusal_between_processes(self) -> None:
        copy = pickle.loads(pickle.dumps(Refused(Refusal.OPEN_QUOTE, 7)))
        self.assertEqual((copy.number, copy.place, str(copy)), (Refusal.OPEN_QUOTE, 7, gorbihesh.words(4)))

    def test_select(self) -> None:
        files = List()
        for word in ("b", "a", "c", "a"):
            files.add(Record().add_word("f", 0, word))
        self.assertEqual(len(files), 4)
        self.assertEqual(gorbihesh.select(TERM, files), [1, 3])
        self.assertEqual(gorbihesh.select(TERM, bytes(files)), [1, 3])
        self.assertEqual(gorbihesh.select(TERM, b""), [])
        for data, refusal in ((b"\x40", Refusal.MALFORMED_LIST), (bytes(65537), Refusal.LONG_LIST)):
            with self.assertRaises(Refused) as raised:
                gorbihesh.select(TERM, data)
            self.assertEqual(raised.exception.number, refusal)

    def test_strict(self) -> None:
        """Minimum 2 and Should f:a twice, the case of document 01: it matches a record with a, and the original drops one."""
        clause = bytes.fromhex("21000b") + TERM
        twice = bytes.fromhex("0300211300020002") + clause + clause
        files = List()
        files.add(Record().add_word("f", 0, "a"))
        self.assertEqual(gorbihesh.select(twice, files), [0])
        self.assertEqual(gorbihesh.rewrite_strict(twice), (twice, 1))
        self.assertEqual(gorbihesh.rewrite(twice), (bytes.fromhex("070000"), 3))
        with self.assertRaises(Refused) as raised:
            gorbihesh.rewrite_strict(TERM[:10])
        self.assertEqual(raised.exception.number, Refusal.MALFORMED_QUERY)

    def test_another_major_version(self) -> None:
        """A library of another major version has another layout, and is not called."""
        own = gorbihesh.__version__
        later = f"{int(own.split('.')[0]) + 1}.0.0"
        source = (HERE / "gorbihesh.py").read_text().replace(f'__version__ = "{own}"', f'__version__ = "{later}"')
        with tempfile.TemporaryDirectory() as folder:
            (Path(folder) / "gorbihesh.py").write_text(source)
            setting = {**os.environ, "GORBIHESH_LIBRARY": gorbihesh._library._name}
            command = [sys.executable, "-c", "import gorbihesh"]
            ended = subprocess.run(command, cwd=folder, env=setting, capture_output=True, text=True, check=False)
        self.assertIn(f"ImportError: libgorbihesh is of version {own}, and gorbihesh.py of {later}", ended.stderr)


class Lists(unittest.TestCase):
    def test_numbers(self) -> None:
        files = List()
        for size, age in ((-5, 0.5), (7, -0.5)):
            files.add(Record().add_whole("size", size).add_float("age", age))
        sizes = between("08", "size", struct.pack(">q", -9), struct.pack(">q", 0))
        ages = between("09", "age", struct.pack(">d", -1), struct.pack(">d", 0))
        self.assertEqual(gorbihesh.select(sizes, files), [0])
        self.assertEqual(gorbihesh.select(ages, files), [1])

    def test_every_kind_of_entry(self) -> None:
        record = Record().add_word("f", 2**32 - 1, "a").add_whole("size", -1).add_float("age", math.nan)
        record.add_word("", 0, "").add_whole("n" * gorbihesh.FIELD_MOST, -(2**63))
        files = List()
        files.add(record)
        self.assertEqual(gorbihesh.select(TERM, files), [0])

    def test_what_does_not_fit(self) -> None:
        for field, word in (("n" * 33, "a"), ("\u00e9", "a"), ("f", "\u00e9"), ("f", "a" * 70000)):
            record = Record()
            self.assertRaises(Unfit, record.add_word, field, 0, word)
            self.assertEqual(record._entries, b"")
        self.assertRaises(OverflowError, Record().add_whole, "f", 2**63)
        self.assertRaises(OverflowError, Record().add_word, "f", -1, "a")

    def test_the_longest_record(self) -> None:
        most = gorbihesh.LIST_MOST - 4 * 3 - 1 - 4  # beside it four headers, the field's name, the word's place
        files = List()
        files.add(Record().add_word("f", 0, "a" * most))
        self.assertEqual(len(bytes(files)), gorbihesh.LIST_MOST)
        self.assertRaises(FullList, files.add, Record())
        self.assertEqual(gorbihesh.select(MATCH_ALL, files), [0])
        self.assertRaises(Unfit, Record().add_word, "f", 0, "a" * (most + 1))

    def test_bare_records_have_rows_enough(self) -> None:
        files = List()
        with self.assertRaises(FullList):
            while True:
                files.add(Record())
        self.assertEqual(gorbihesh.select(MATCH_ALL, files), list(range(len(files))))


if __name__ == "__main__":
    unittest.main()
