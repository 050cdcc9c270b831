"""Tests of perlwynos: python3 -m unittest, in this folder, after ./build.

What needs other files of the project is passed over where this folder was copied without them.
"""

import csv
import doctest
import importlib.util
import io
import json
import os
import pathlib
import pickle
import re
import subprocess
import sys
import tempfile
import threading
import unittest
from unittest import mock

import perlwynos
from perlwynos import Drawn, Refused, draw

HERE = pathlib.Path(__file__).resolve().parent
ROOT = HERE.parent.parent
VECTORS = ROOT / "vectors"
PROJECT = (ROOT / "include/perlwynos.h").exists()
of_the_project = unittest.skipUnless(PROJECT, "the project is not at hand")


def load_tests(_loader, tests, _pattern):
    tests.addTests(doctest.DocTestSuite(perlwynos))
    for path in [HERE / "README.md"] + PROJECT * [ROOT / "README.md"]:
        tests.addTests(doctest.DocFileSuite(str(path), module_relative=False))
    return tests


def answer(class_code, tokens, tail=b"", swap=False):
    """The row that the batch program prints for a request, and the row of its sites."""
    try:
        drawn = draw(class_code, tokens, tail, swap)
    except Refused as refused:
        return b"%d\t%d\t\t" % (refused.number, refused.place), b""
    lists = (b"%d:%s" % (sn, b".".join(b"%d" % atom for atom in atoms)) for sn, atoms in drawn.carbons.items())
    sites = (b"%d:%d" % site for site in drawn.sites.items())
    return b"0\t0\t%s\t%s" % (drawn.line.encode("ascii"), b";".join(lists)), b";".join(sites)


class Accepted(unittest.TestCase):
    def test_worked_lines(self):
        self.assertEqual(
            draw("FA", ["6:1"]),
            Drawn("OC(=O)CC=CC |Sg:n:3:a:ht,Sg:n:6:b:ht| constrain(a+b=3)", {1: (1, 3, 4, 5, 6)}, {1: 1}),
        )
        self.assertEqual(draw("FA", ["5:0;OH"]), Drawn("OC(=O)CCCC.*O |m:7:3.4.5.6|", {1: (1, 3, 4, 5, 6)}, {1: 1}))
        self.assertEqual(draw("SB", ["d6:0"], tail="O"), Drawn("C(CO)(N)C(O)CCC", {1: (1, 0, 4, 6, 7, 8)}, {}))

    def test_several_chains(self):
        self.assertEqual(
            draw("GP", ["2:0", "2:0"], "O", swap=True),
            Drawn("C(CO)(OC(=O)C)COC(=O)C |$;;;sn2;;;;;sn1$| swappable(sn1,sn2)", {1: (9, 11), 2: (4, 6)}, {1: 8, 2: 3}),
        )
        self.assertEqual(draw("GP", ["2:0", "2:0"], "O").line, "C(CO)(OC(=O)C)COC(=O)C")

    def test_a_place_without_a_chain(self):
        self.assertEqual(draw("GL2", ["0:0", "2:0"]), Drawn("C(CO)(OC(=O)C)CO", {2: (4, 6)}, {2: 3}))
        self.assertEqual(draw("GL1", ["0:0"]), Drawn("C(CO)(O)CO", {}, {}))

    def test_str_and_bytes(self):
        drawn = draw("SA", ["d4:0", "2:0"], "O")
        self.assertEqual(draw(b"SA", [b"d4:0", b"2:0"], b"O"), drawn)
        self.assertEqual(draw("SA", (b"d4:0", "2:0"), b"O"), drawn)
        self.assertEqual(draw("SA", iter(["d4:0", "2:0"]), "O"), drawn)

    def test_a_token_of_255_bytes(self):
        self.assertEqual(draw("FA", ["2:0".ljust(255)]).line, "OC(=O)C")

    def test_a_line_in_csv_and_json(self):
        line = draw("FA", ["18:1(9Z)"]).line
        self.assertEqual(line, "OC(=O)CCCCCCC/C=C\\CCCCCCCC")
        written = io.StringIO()
        csv.writer(written).writerow([line])
        self.assertEqual(written.getvalue(), line + "\r\n")
        self.assertEqual(json.loads(json.dumps({"line": line}))["line"], line)

    def test_what_is_drawn_cannot_be_altered(self):
        drawn = draw("FA", ["2:0"])
        with self.assertRaises(AttributeError):
            drawn.line = ""
        for table in (drawn.carbons, drawn.sites):
            for alter in (
                lambda t: t.__setitem__(1, ()),
                lambda t: t.__delitem__(1),
                lambda t: t.update({2: ()}),
                lambda t: t.setdefault(2, ()),
                lambda t: t.pop(1),
                lambda t: t.popitem(),
                lambda t: t.clear(),
                lambda t: t.__ior__({2: ()}),
            ):
                self.assertRaises(TypeError, alter, table)
        self.assertEqual(pickle.loads(pickle.dumps(drawn)), drawn)
        self.assertEqual({drawn: 1}[draw("FA", ["2:0"])], 1)


class Rooms(unittest.TestCase):
    LONG = ["255:0;(OH)16"] * 4

    def setUp(self):
        perlwynos._unused.clear()

    def test_a_line_that_outgrows_its_room(self):
        """Each of its 64 groups lists 254 sites."""
        drawn = draw("CL", self.LONG, swap=True)
        self.assertGreater(len(drawn.line), 65536)
        self.assertTrue(drawn.line.endswith("| swappable(sn1,sn2,sn3,sn4)"))
        self.assertEqual([len(atoms) for atoms in drawn.carbons.values()], [255] * 4)
        atoms = [atom for listed in drawn.carbons.values() for atom in listed]
        self.assertEqual(len(set(atoms)), 4 * 255)
        # The room stays as large, and what was in it does not show.
        self.assertEqual([len(rooms.line) for rooms in perlwynos._unused], [131072])
        self.assertEqual(draw("FA", ["2:0"]), Drawn("OC(=O)C", {1: (1, 3)}, {1: 1}))

    def test_lines_about_as_long_as_the_first_room(self):
        lengths = set()
        for carbons in range(200, 256):
            for groups in range(3, 7):
                drawn = draw("FA", [f"{carbons}:0;(OH){groups}"])
                lengths.add(len(drawn.line))
                self.assertTrue(drawn.line.endswith("|"))
        self.assertLess(min(lengths), 4096)
        self.assertGreater(max(lengths), 4096)

    def test_rooms_that_start_with_one(self):
        with mock.patch.multiple(perlwynos, _LINE_ROOM=1, _INDEX_ROOM=1):
            drawn = draw("FA", ["255:0"])
        self.assertEqual(drawn.line, "OC(=O)" + 254 * "C")
        self.assertEqual(drawn.carbons[1], (1, *range(3, 257)))

    def test_a_call_within_a_call(self):
        """As a signal handler makes it, after the library has answered and before the answer is taken."""
        take, within = perlwynos._Rooms.drawn, []

        def interrupted(rooms):
            if not within:
                within.append(None)
                within.append(draw("FA", ["9:0"]))
            return take(rooms)

        with mock.patch.object(perlwynos._Rooms, "drawn", interrupted):
            outer = draw("FA", ["2:0"])
        self.assertEqual(outer, Drawn("OC(=O)C", {1: (1, 3)}, {1: 1}))
        self.assertEqual(within[1], draw("FA", ["9:0"]))

    def test_threads(self):
        requests = [("FA", [f"{n}:0"]) for n in range(2, 34)] + [("CL", self.LONG)]
        single = [draw(*request) for request in requests]
        found = []

        def work():
            for _ in range(4):
                found.append([draw(*request) for request in requests])

        threads = [threading.Thread(target=work) for _ in range(4)]
        for thread in threads:
            thread.start()
        for thread in threads:
            thread.join()
        self.assertEqual(found, 16 * [single])
        self.assertLessEqual(len(perlwynos._unused), 4)


class Refusals(unittest.TestCase):
    def refused(self, number, place, class_code, tokens, tail=b"", swap=False):
        with self.assertRaises(Refused) as caught:
            draw(class_code, tokens, tail, swap)
        self.assertEqual((caught.exception.number, caught.exception.place), (number, place))
        return caught.exception

    def test_each_number_with_its_place(self):
        author, picker = "the author of the name", "whoever picked the template"
        for number, place, mender, request in (
            (11, 2, author, ("GL2", ["16:0", "sixteen"])),
            (12, 1, author, ("FA", ["18:0;1OMe"])),
            (12, 2, author, ("GL3", ["2:0", "2:0;1OH", "2:0"])),
            (13, 2, author, ("GL2", ["2:0", "18:1;4OH"])),
            (14, 3, author, ("GL3", ["2:0", "2:0", "4:1"])),
            (15, 1, author, ("FA", ["1:0;OH"])),
            (20, 0, picker, ("fa", ["2:0"])),
            (21, 0, picker, ("FA", ["2:0", "2:0"])),
            (22, 2, picker, ("GL2", ["16:0", "d18:0"])),
            (23, 0, picker, ("FA", ["2:0"], "O")),
            (23, 0, picker, ("GP", ["2:0"])),
            (23, 0, picker, ("GP", ["2:0"], "O(")),
            (31, 1, author, ("FA", ["256:0"])),
            (31, 4, author, ("CL", ["2:0", "2:0", "2:0", "2:0".ljust(256)])),
            (32, 1, author, ("FA", ["5:0;1Ep"])),
            (32, 4, author, ("CL", ["2:0", "2:0", "2:0", "2:0;5OH"])),
            (33, 1, author, ("FA", ["18:2(9,9)"])),
        ):
            with self.subTest(request=request):
                refused = self.refused(number, place, *request)
                self.assertEqual(refused.mender, mender)
                said = str(refused)
                self.assertTrue(said.startswith(f"refusal {number}: "))
                self.assertTrue(said.endswith(f"; {mender} can mend it"))
                self.assertEqual(f"token {place} " in said, place > 0)
                self.assertNotIn("{", said)
                again = pickle.loads(pickle.dumps(refused))
                self.assertEqual((again.number, again.place, str(again)), (number, place, said))

    def test_too_many_tokens(self):
        for class_code in ("FA", "GL1", "GL2", "GL3", "GP", "CL", "SB", "SA"):
            self.refused(21, 0, class_code, ["2:0"] * 5)
        self.refused(21, 0, "CL", ["2:0", "2:0", "2:0", "2:0", ""])
        self.refused(21, 0, "CL", ["2:0"] * 1000)
        self.refused(21, 0, "FA", ["sixteen"] * 5)
        self.refused(20, 0, "PC", ["2:0"] * 5)

    def test_empty_texts(self):
        self.refused(20, 0, "", [])
        self.refused(21, 0, "FA", [])
        self.refused(11, 1, "FA", [""])
        self.refused(11, 2, "GL2", ["2:0", b""])
        self.refused(22, 1, "FA", ["0:0"])

    def test_bytes_beyond_ascii(self):
        for token in ("16:0\u00e9", "\u2080:\u2080", b"16:0\xff", "\ud800", b"16:0\x00", "16:0\t", b"\x7f"):
            with self.subTest(token=token):
                self.refused(31, 2, "GL2", ["16:0", token])
        self.refused(20, 0, "F\u0100", ["16:0"])
        self.refused(20, 0, b"FA\x00", ["16:0"])
        self.refused(23, 0, "GP", ["16:0"], "\u00d8")

    def test_what_is_no_text(self):
        for wrong in (("FA", "6:1"), ("FA", b"6:1"), ("FA", [None]), ("FA", [6]), (1, ["6:1"]), ("GP", ["6:1"], None)):
            with self.subTest(wrong=wrong):
                self.assertRaises(TypeError, draw, *wrong)

    def test_what_is_no_flag(self):
        """A cell of a sheet is text, and `bool("0")` is true."""
        plain, swapped = draw("GL2", ["2:0", "2:0"]), draw("GL2", ["2:0", "2:0"], swap=True)
        self.assertNotIn("swappable", plain.line)
        self.assertIn("swappable", swapped.line)
        self.assertEqual(draw("GL2", ["2:0", "2:0"], swap=0), plain)
        self.assertEqual(draw("GL2", ["2:0", "2:0"], swap=1), swapped)
        for wrong in ("0", "1", "", b"0", b"1", None, 2, -1, 0.0, 1.0, [], "False"):
            with self.subTest(swap=wrong):
                self.assertRaises(TypeError, draw, "GL2", ["2:0", "2:0"], swap=wrong)


@of_the_project
class Project(unittest.TestCase):
    """That the copies here of what the project says are true."""

    def test_meanings(self):
        _, *rows = (ROOT / "tools/sheet/answers.tsv").read_text(encoding="ascii").splitlines()
        stated = {int(number): (meaning, mender) for number, meaning, mender in (row.split("\t") for row in rows)}
        self.assertEqual((stated.pop(0), stated.pop(42)[1]), (("accepted", ""), "whoever made the sheet"))
        self.assertEqual(perlwynos._MEANINGS, stated)

    def test_numbers(self):
        text = (ROOT / "include/perlwynos.h").read_text(encoding="ascii")
        stated = {name: int(number) for name, number in re.findall(r"PERLWYNOS(_[A-Z_]+) = (\d+)", text)}
        for name in ("_TOKEN", "_LENGTH", "_LISTS", "_LIST", "_SITES", "_SITE"):
            self.assertEqual(getattr(perlwynos, name), stated.pop(name))
        self.assertEqual(perlwynos._REPORT_ROOM, stated.pop("_REPORT"))
        self.assertEqual(perlwynos._SHORT_SLICE, stated["_SHORT_SLICE"])
        self.assertEqual((stated.pop("_NUMBER"), stated.pop("_ACCEPTED")), (0, 0))
        self.assertEqual(sorted(perlwynos._MEANINGS), sorted(stated.values()))


@of_the_project
class Vectors(unittest.TestCase):
    """All stored requests, and what the batch program prints for them."""

    def run_over(self, name, sites=False):
        rows = (VECTORS / f"{name}.tsv").read_bytes().split(b"\n")[1:-1]
        stored = (VECTORS / f"{name}.out").read_bytes().split(b"\n")[1 : len(rows) + 1]
        stored_sites = (VECTORS / "sites.out").read_bytes().split(b"\n") if sites else len(rows) * [None]
        for row, expected, expected_sites in zip(rows, stored, stored_sites):
            if expected.startswith(b"42\t"):
                continue  # of the batch program alone
            class_code, swap, tail, *tokens = row.split(b"\t")
            while tokens and not tokens[-1]:
                tokens.pop()
            found, found_sites = answer(class_code, tokens, tail, swap == b"1")
            if expected.startswith(b"41\t"):
                # The batch program has 65,536 bytes for a line; here its room grows.
                self.assertEqual(found[:4], b"0\t0\t", row)
                self.assertGreater(len(found.split(b"\t")[2]), 65536, row)
                continue
            self.assertEqual(found, expected, row)
            if sites:
                self.assertEqual(found_sites, expected_sites, row)
        self.assertGreater(len(rows), 100)

    def test_traps(self):
        self.run_over("traps")

    def test_requests(self):
        self.run_over("requests", sites=True)

    def test_chains(self):
        self.run_over("chains")


@of_the_project
class Examples(unittest.TestCase):
    """The examples on examples/orders.tsv, but for rows that only the batch program refuses."""

    def run_over(self, name):
        titles, *rows = (ROOT / "examples/orders.tsv").read_text(encoding="latin-1").split("\n")[:-1]
        stored = (ROOT / "examples/orders.out").read_text(encoding="ascii").split("\n")[1:]
        both = [(row, answer.split("\t")) for row, answer in zip(rows, stored) if answer[:3] not in ("41\t", "42\t")]
        both = [(row, answer) for row, answer in both if row.isascii() and "\r" not in row]
        with tempfile.TemporaryDirectory() as folder:
            sheet = pathlib.Path(folder, "orders.tsv")
            sheet.write_text("\n".join([titles, *(row for row, _ in both)]) + "\n", encoding="ascii")
            environment = {**os.environ, "PYTHONPATH": os.pathsep.join(sys.path)}
            found = subprocess.run(
                [sys.executable, str(HERE / "examples" / name), str(sheet)],
                stdout=subprocess.PIPE, check=True, env=environment, encoding="ascii",
            ).stdout
        written = list(csv.DictReader(io.StringIO(found, newline="")))
        self.assertGreater(len(both), 200)
        self.assertEqual([(row["answer"], row["line"]) for row in written], [(answer[0], answer[2]) for _, answer in both])
        self.assertTrue(all((row["answer"] == "0") == (row["meaning"] == "") for row in written))

    def test_csv(self):
        self.run_over("orders_csv.py")

    @unittest.skipUnless(importlib.util.find_spec("pandas"), "there is no pandas")
    def test_pandas(self):
        self.run_over("orders_pandas.py")


if __name__ == "__main__":
    unittest.main()
