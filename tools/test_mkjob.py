"""Tests of mkjob: python3 tools/test_mkjob.py"""
import importlib.machinery
import importlib.util
import os
import subprocess
import sys
import tempfile
import unittest

sys.dont_write_bytecode = True
HERE = os.path.dirname(os.path.abspath(__file__))
PATH = os.path.join(HERE, "mkjob")
CHART = os.path.join(HERE, "..", "crates", "chart", "stdout")
loader = importlib.machinery.SourceFileLoader("mkjob", PATH)
mkjob = importlib.util.module_from_spec(importlib.util.spec_from_loader("mkjob", loader))
loader.exec_module(mkjob)

SWAP = bytes.fromhex("02000100" "010001000C000000" "050001")


class Written(unittest.TestCase):
    def test_the_scope_papers_example(self):
        self.assertEqual(mkjob.job("qubits 2\ngates\nswap 0 1\n"), SWAP)

    def test_comments_blank_lines_and_indentation(self):
        self.assertEqual(mkjob.job("# a layer\n\nqubits 2 # two\n gates\n   swap 0 1  # both\n"), SWAP)

    def test_no_entries(self):
        self.assertEqual(mkjob.job("qubits 3"), bytes([3, 0, 0, 0]))

    def test_every_gate(self):
        made = mkjob.job("qubits 2\ngates\nh 0\ns 1\nrx 0\ncx 0 1\ncz 1 0\nswap 0 1")
        self.assertEqual(made[12:], bytes([0, 0, 0, 1, 1, 0, 2, 0, 0, 3, 0, 1, 4, 1, 0, 5, 0, 1]))
        self.assertEqual(made[6:8], bytes([6, 0]))

    def test_rows_by_letters_and_by_words_agree(self):
        letters = mkjob.job("qubits 2\nrows\nIX XI\nIZ ZI")
        self.assertEqual(letters, mkjob.job("qubits 2\nrows\n0x2 0x1 0x8 0x4"))
        self.assertEqual(letters[4:12], bytes([0, 0, 4, 0, 12, 0, 0, 0]))

    def test_the_letters_pair_as_the_chart_says(self):
        def pairing(a, b):
            return (a[0] & b[1]) ^ (a[1] & b[0])

        lines = ["  " + " ".join(mkjob.LETTERS)]
        lines += [" ".join([c] + [str(pairing(a, b)) for b in mkjob.LETTERS.values()]) for c, a in mkjob.LETTERS.items()]
        with open(CHART, encoding="ascii") as f:
            self.assertEqual(f.read().splitlines(), lines)

    def test_y_sets_both_bits(self):
        self.assertEqual(mkjob.job("qubits 1\nrows\nY")[12:], bytes([3] + [0] * 7))

    def test_offsets_of_two_entries(self):
        made = mkjob.job("qubits 1\ngates\nh 0\nrows\nZ X")
        self.assertEqual(made[8:12], bytes([20, 0, 0, 0]))
        self.assertEqual(made[16:20], bytes([23, 0, 0, 0]))
        self.assertEqual(len(made), 20 + 3 + 16)

    def test_what_turnlist_refuses_is_still_written(self):
        self.assertEqual(mkjob.job("qubits 2\ngates\ncx 1 1")[12:], bytes([3, 1, 1]))
        self.assertEqual(mkjob.job("qubits 33")[:2], bytes([33, 0]))


class Faults(unittest.TestCase):
    def fault(self, text, part):
        with self.assertRaises(mkjob.Fault) as caught:
            mkjob.job(text)
        self.assertIn(part, str(caught.exception))

    def test_faults_name_their_line(self):
        self.fault("qubits 2\n\ngates\ntoffoli 0 1", "line 4: no gate is called 'toffoli'")

    def test_statements_out_of_place(self):
        self.fault("", "'qubits'")
        self.fault("gates", "first statement")
        self.fault("qubits 1\nh 0", "begin an entry")
        self.fault("qubits 1\nqubits 2", "a second time")
        self.fault("qubits", "one number")

    def test_numbers(self):
        self.fault("qubits two", "must be a number")
        self.fault("qubits 70000", "above 65535")
        self.fault("qubits 1\ngates\nh 256", "above 255")
        self.fault("qubits 1\ngates\nh -1", "must be a number")

    def test_how_many_qubits_a_gate_takes(self):
        self.fault("qubits 2\ngates\ncx 0", "cx takes 2 qubits, and 1 stand here")
        self.fault("qubits 2\ngates\nh 0 1", "h takes 1 qubit, and 2 stand here")

    def test_rows(self):
        self.fault("qubits 2\nrows\nXQ", "is no row")
        self.fault("qubits 2\nrows\nX", "has 1 letters, and there are 2 qubits")
        self.fault("qubits 2\nrows\n0xzz", "not a hexadecimal word")
        self.fault("qubits 2\nrows\n0x1ffffffffffffffff", "more than 64 bits")

    def test_too_long(self):
        self.fault("qubits 1\ngates\n" + "h 0\n" * 22000, "65536 is the most")


class Command(unittest.TestCase):
    def run_on(self, text):
        with tempfile.NamedTemporaryFile("w", suffix=".txt") as f:
            f.write(text)
            f.flush()
            return subprocess.run([sys.executable, PATH, f.name], capture_output=True, check=False)

    def test_it_writes_the_file(self):
        run = self.run_on("qubits 2\ngates\nswap 0 1")
        self.assertEqual((run.returncode, run.stdout), (0, SWAP))

    def test_a_fault_is_told_and_nothing_is_written(self):
        run = self.run_on("qubits 2\ngates\nswap 0")
        self.assertEqual((run.returncode, run.stdout), (1, b""))
        self.assertIn(b"line 3: swap takes 2 qubits", run.stderr)

    def test_a_missing_file(self):
        run = subprocess.run([sys.executable, PATH, "/nowhere/at/all"], capture_output=True, check=False)
        self.assertEqual(run.returncode, 1)
        self.assertIn(b"No such file", run.stderr)


if __name__ == "__main__":
    unittest.main()
