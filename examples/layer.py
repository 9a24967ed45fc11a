"""A layer by its gates, its turn lists, the action rebuilt from each, its fixed space, the shorter list, three refusals, what a
memory saves, and a gate of a lab's own sheet. Run it by examples/run-python."""
import sys

from turnlist import CX, ENTRY_WORDS, H, SIX_GATES, Refusal, Turnlist, words

N = 3
ISWAP = 3  # of the lab's sheet
HARDER = [0x16, 0x1a, 0x2b, 0x07, 0x05, 0x04]  # rows of an action whose search comes upon failed subspaces again


def letters(vectors):
    """The vectors as letters, qubit 0 first."""
    return " ".join("".join("IXZY"[v >> q & 1 | (v >> N + q & 1) << 1] for q in range(N)) for v in vectors)


def main(path, sheet_path):
    library = Turnlist(path)

    def compared(turns):
        return "the same action" if library.rebuild(N, turns) == action else "another action"

    action = library.gates(N, SIX_GATES, [(H, 0, 0), (CX, 1, 2)])
    print(f"layer on {N} qubits: H 0, CX 1 2")

    minimal, looks = library.minimal(N, action, 1_000_000)
    print(f"minimal: {len(minimal)} turns, {looks} looks: {letters(minimal)}")
    print(f"rebuilt from the minimal list: {compared(minimal)}")

    greedy = library.greedy(N, action)
    print(f"greedy: {len(greedy)} turns: {letters(greedy)}")
    print(f"rebuilt from the greedy list: {compared(greedy)}")

    commuting = library.self_inverse(N, action)  # H and CX undo themselves, and here they are on different qubits
    print(f"self-inverse: {len(commuting)} turns that commute: {letters(commuting)}")
    print(f"rebuilt from the self-inverse list: {compared(commuting)}")

    fixed = library.fixed_space(N, action)
    print(f"fixed space: {len(fixed)} vectors: {letters(fixed)}")

    shorter = library.shorter(N, action, greedy, minimal)
    print(f"shorter of the greedy and the minimal list: {len(shorter)} turns: {letters(shorter)}")

    try:
        library.shorter(N, action, greedy[:-1], minimal[:-1])
    except Refusal as refusal:
        print(f"with the last turn of each left off: {refusal}")

    try:
        library.minimal(N, action, looks - 1)
    except Refusal as refusal:
        print(f"minimal with one look too few: {refusal}")

    _, looks = library.minimal(N, HARDER, 1_000_000)
    _, fewer = library.minimal_remembering(N, HARDER, 1_000_000, words([0] * (16 * ENTRY_WORDS)))
    print(f"a harder layer: {looks} looks, with a memory of 16 failed subspaces {fewer}")

    try:
        library.self_inverse(N, HARDER)
    except Refusal as refusal:
        print(f"as a self-inverse layer: {refusal}")

    with open(sheet_path, "rb") as f:
        sheet = f.read()
    in_force, number = library.load_sheet(sheet, SIX_GATES)
    if number:
        raise Refusal(number)
    print(f"the lab's own sheet: {in_force[0]} gates")
    minimal, _ = library.minimal(N, library.gates(N, in_force, [(ISWAP, 0, 1)]), 1_000_000)
    print(f"its iSWAP on qubits 0 and 1, minimal: {len(minimal)} turns: {letters(minimal)}")
    in_force, number = library.load_sheet(sheet[:-1], in_force)
    print(f"the sheet without its last byte: {Refusal(number)}")
    print(f"in force: {len(in_force)} bytes")


main(*sys.argv[1:3])
