"""Tests of mksheet, and of our six gates wherever they stand: python3 tools/test_mksheet.py"""
import importlib.machinery
import importlib.util
import os
import re
import subprocess
import sys
import tempfile
import unittest

sys.dont_write_bytecode = True
HERE = os.path.dirname(os.path.abspath(__file__))
PATH = os.path.join(HERE, "mksheet")
TOP = os.path.join(HERE, "..")
loader = importlib.machinery.SourceFileLoader("mksheet", PATH)
mksheet = importlib.util.module_from_spec(importlib.util.spec_from_loader("mksheet", loader))
loader.exec_module(mksheet)

SIX = "h 1 Y\ns 1 Z\nrx 1 X\ncx 2 ZI ZX IX\ncz 2 ZI ZZ IZ\nswap 2 XX YY ZZ\n"


def read(*path):
    with open(os.path.join(TOP, *path), encoding="utf-8") as f:
        return f.read()


def listed(text, begins, ends):
    """The numbers that stand between two marks, comments left out."""
    part = text[text.index(begins) + len(begins):]
    return bytes(int(x) for x in re.findall(r"\d+", re.sub(r"/\*.*?\*/", "", part[:part.index(ends)])))


class Written(unittest.TestCase):
    def test_one_gate(self):
        self.assertEqual(mksheet.sheet("h 1 Y"), bytes([1, 1, 1, 5, 0, 5]))

    def test_comments_blank_lines_and_indentation(self):
        self.assertEqual(mksheet.sheet("# a sheet\n\n  h 1   Y  # a turn\n"), bytes([1, 1, 1, 5, 0, 5]))

    def test_the_bits_of_a_turn(self):
        self.assertEqual(mksheet.sheet("g 2 XI IX ZI IZ YY")[5:], bytes([1, 2, 4, 8, 15]))
        self.assertEqual(mksheet.sheet("g 1 X Z Y")[5:], bytes([1, 4, 5]))

    def test_no_turns(self):
        self.assertEqual(mksheet.sheet("x 1\nwait 2"), bytes([2, 1, 0, 9, 0, 2, 0, 9, 0]))

    def test_offsets_past_255(self):
        made = mksheet.sheet("\n".join(f"g{k} 2 XX XX XX XX XX XX" for k in range(64)))
        self.assertEqual(len(made), 1 + 64 * 4 + 64 * 6)
        self.assertEqual(made[1 + 4 * 63:1 + 4 * 64], bytes([2, 6, 635 % 256, 635 // 256]))

    def test_our_six_gates_are_the_same_everywhere(self):
        six = mksheet.sheet(SIX)
        self.assertEqual(len(six), 37)
        self.assertEqual(six, listed(read("crates", "sheets", "src", "lib.rt"), "SIX_GATES: [u8; 37] = [", "]"))
        self.assertEqual(six, listed(read("include", "turnlist.h"), "turnlist_six_gates[TURNLIST_SIX_GATES_BYTES] = {", "}"))
        self.assertEqual(six, listed(read("examples", "turnlist.rs"), "SIX_GATES: [u8; 37] = [", "]"))
        self.assertEqual(six, listed(read("examples", "turnlist.py"), "SIX_GATES = bytes([", "]"))

    def test_the_example(self):
        made = mksheet.sheet(read("examples", "native-gates.txt"))
        self.assertEqual(made[0], 6)
        self.assertEqual(made[25:], bytes([4, 12, 8, 1, 4, 3, 15, 6]))


class Refused(unittest.TestCase):
    def refused(self, text, what):
        with self.assertRaisesRegex(mksheet.Fault, what):
            mksheet.sheet(text)

    def test_faults(self):
        self.refused("", "no gate")
        self.refused("h", "line 1: write a name")
        self.refused("h 3 XXX", "line 1: write a name")
        self.refused("h 1 Y\nh 1 X", "line 2: the gate 'h' stands here a second time")
        self.refused("h 1 XX", "line 1: 'XX' is no turn")
        self.refused("h 2 X", "line 1: 'X' is no turn")
        self.refused("h 1 A", "line 1: 'A' is no turn")
        self.refused("h 2 II", "line 1: 'II' is no turn: it touches no qubit")
        self.refused("h 1 X X X X X X X", "7 turns, and 6 are the most")
        self.refused("\n".join(f"g{k} 1" for k in range(65)), "line 65: a sheet has at most 64 gates")


class Program(unittest.TestCase):
    def run_on(self, text):
        with tempfile.NamedTemporaryFile("w", suffix=".txt") as f:
            f.write(text)
            f.flush()
            return subprocess.run([sys.executable, PATH, f.name], capture_output=True)

    def test_a_sheet_is_written_to_standard_output(self):
        self.assertEqual(self.run_on("h 1 Y").stdout, bytes([1, 1, 1, 5, 0, 5]))

    def test_a_fault_is_said_and_nothing_written(self):
        ran = self.run_on("h 1 II")
        self.assertNotEqual(ran.returncode, 0)
        self.assertEqual(ran.stdout, b"")
        self.assertIn(b"line 1", ran.stderr)


unittest.main()
