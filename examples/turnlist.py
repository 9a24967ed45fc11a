"""The calls of include/turnlist.h, from a shared object. Lists of numbers go in; an answer is a list of as many words as were
written, or one of the lists itself, and a refusal is raised."""
import ctypes

SIX_GATES = bytes([
    6, 1, 1, 25, 0, 1, 1, 26, 0, 1, 1, 27, 0, 2, 3, 28, 0, 2, 3, 31, 0, 2, 3, 34, 0, 5, 4, 1, 4, 6, 2, 4, 12, 8, 3, 15, 12,
])  # our six gates as a sheet
H, S, ROOT_X, CX, CZ, SWAP = range(6)
MOST_QUBITS = 32
ENTRY_WORDS = 65  # of a memory, for one failed subspace
MEANINGS = (
    "an answer",
    "more than 32 qubits",
    "not exactly 2n rows",
    "a row with bits from 2n up",
    "the rows are not symplectic",
    "too few output words",
    "the search would look further than the budget",
    None,  # there is no 7
    "a vector with bits from 2n up",
    "no such gate",
    "a qubit that is not there",
    "two equal qubits",
    None, None,  # 12 and 13 are refusals of a job file, which no call here takes
    "neither list has the action for its product",
    "a sheet whose counts, lines or offsets are wrong",
    "a sheet with a turn that is zero, above 15, or on a second qubit that is not there",
    "the action is not its own inverse",
)
WORD = ctypes.c_uint64
WORDS = ctypes.POINTER(WORD)
BYTES = ctypes.POINTER(ctypes.c_uint8)
LENGTH = ctypes.c_size_t


class Refusal(Exception):
    """The first question that was answered no."""

    def __init__(self, number):
        super().__init__(f"refused, {number}: {MEANINGS[number]}")
        self.number = number


def lent(kind, numbers, bound):
    """The numbers as an array of words or bytes; ctypes alone would cut a number to its width."""
    for number in numbers:
        if not 0 <= number < bound:
            raise ValueError(f"{number} is not from 0 to {bound - 1}")
    return (kind * len(numbers))(*numbers)


def words(numbers):
    return lent(WORD, numbers, 1 << 64)


def octets(numbers):
    return lent(ctypes.c_uint8, numbers, 256)


def word(number):
    return words([number])[0]


class Turnlist:
    def __init__(self, path):
        library = ctypes.CDLL(path)
        lending = [WORDS, LENGTH, WORDS]
        self._minimal = self._call(library.turnlist_minimal, [WORD, WORDS, LENGTH, WORD, *lending, WORDS])
        self._remembering = self._call(library.turnlist_minimal_remembering, [WORD, WORDS, LENGTH, WORD, WORDS, LENGTH, *lending, WORDS])
        self._greedy = self._call(library.turnlist_greedy, [WORD, WORDS, LENGTH, *lending])
        self._fixed_space = self._call(library.turnlist_fixed_space, [WORD, WORDS, LENGTH, *lending])
        self._self_inverse = self._call(library.turnlist_self_inverse, [WORD, WORDS, LENGTH, *lending])
        self._rebuild = self._call(library.turnlist_rebuild, [WORD, WORDS, LENGTH, *lending])
        self._shorter = self._call(library.turnlist_shorter, [WORD, *[WORDS, LENGTH] * 3, WORDS])
        self._sheet = self._call(library.turnlist_sheet, [BYTES, LENGTH])
        self._gates = self._call(library.turnlist_gates, [WORD, *[BYTES, LENGTH] * 2, *lending])

    @staticmethod
    def _call(function, argtypes):
        function.argtypes, function.restype = argtypes, WORD
        return function

    @staticmethod
    def _answered(number):
        """Raises the refusal of a number, if it is one."""
        if number:
            raise Refusal(number)

    def _written(self, call, room, *arguments, told=()):
        """Lends room for an answer; what was written of it."""
        out, count = (WORD * room)(), WORD()
        self._answered(call(*arguments, out, room, ctypes.byref(count), *told))
        return out[: count.value]

    def minimal(self, n, rows, budget):
        """A list of turns whose product is the action, of which none is shorter; and the looks of its search."""
        looks = WORD()
        turns = self._written(self._minimal, 2 * MOST_QUBITS + 1, word(n), words(rows), len(rows), word(budget), told=[looks])
        return turns, looks.value

    def minimal_remembering(self, n, rows, budget, memory):
        """The same with a memory, an array made by words(), of failed subspaces, ENTRY_WORDS words each, of which none is
        searched twice. Wherever minimal answers the list is the same; the looks are never more."""
        looks = WORD()
        asked = word(n), words(rows), len(rows), word(budget), memory, len(memory)
        turns = self._written(self._remembering, 2 * MOST_QUBITS + 1, *asked, told=[looks])
        return turns, looks.value

    def greedy(self, n, rows):
        """A list of turns whose product is the action, quickly found."""
        return self._written(self._greedy, 4 * MOST_QUBITS + 2, word(n), words(rows), len(rows))

    def fixed_space(self, n, rows):
        """The reduced basis, pivots ascending, of all vectors that the action leaves as they are."""
        return self._written(self._fixed_space, 2 * MOST_QUBITS, word(n), words(rows), len(rows))

    def self_inverse(self, n, rows):
        """A list of turns whose product is the action, for one that is its own inverse: the turns commute, and no list of it is
        shorter. There is no search."""
        return self._written(self._self_inverse, 2 * MOST_QUBITS + 1, word(n), words(rows), len(rows))

    def rebuild(self, n, vectors):
        """The 2n rows of the product of any list."""
        return self._written(self._rebuild, 2 * min(n, MOST_QUBITS), word(n), words(vectors), len(vectors))

    def shorter(self, n, rows, first, second):
        """Of two lists the shorter one whose product is the action, the first at equal length: the list itself."""
        chosen = WORD()
        lists = words(first), len(first), words(second), len(second)
        self._answered(self._shorter(word(n), words(rows), len(rows), *lists, ctypes.byref(chosen)))
        return first if chosen.value == 1 else second

    def load_sheet(self, sheet, former):
        """The sheet in force from now on, and the number: the sheet and 0 if it passes its questions, else the former one."""
        number = self._sheet(octets(sheet), len(sheet))
        return (former if number else sheet), number

    def gates(self, n, sheet, gates):
        """The 2n rows of the action of a sequence of gates of the sheet, each its number, a and b; gates on one qubit do not
        read b."""
        flat = octets([part for number, a, b in gates for part in (number, a, b)])
        return self._written(self._gates, 2 * min(n, MOST_QUBITS), word(n), octets(sheet), len(sheet), flat, len(flat))
