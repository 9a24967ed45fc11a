/* A layer by its gates, its turn lists, the action rebuilt from each, its fixed space, the shorter list, three refusals, what
 * a memory saves, and a gate of a lab's own sheet. Run it by examples/run-c. */
#include "turnlist.h"

#include <inttypes.h>
#include <stdio.h>
#include <string.h>

enum { N = 3, ROWS = TURNLIST_ROWS(N), MINIMAL_WORDS = TURNLIST_MINIMAL_WORDS(N), GREEDY_WORDS = TURNLIST_GREEDY_WORDS(N),
       MEMORY_WORDS = 16 * TURNLIST_ENTRY_WORDS, ISWAP = 3, SHEET_BYTES = 1024 };

/* The gates that can be played: ours, until another sheet is loaded. */
static struct {
    const uint8_t *bytes;
    size_t length;
} in_force = {turnlist_six_gates, TURNLIST_SIX_GATES_BYTES};

static const uint8_t layer[] = {
    TURNLIST_H, 0, 0, /* the last byte is not read */
    TURNLIST_CX, 1, 2,
};

static const char *const meanings[] = {
    "an answer",
    "more than 32 qubits",
    "not exactly 2n rows",
    "a row with bits from 2n up",
    "the rows are not symplectic",
    "too few output words",
    "the search would look further than the budget",
    NULL, /* there is no 7 */
    "a vector with bits from 2n up",
    "no such gate",
    "a qubit that is not there",
    "two equal qubits",
    NULL, NULL, /* 12 and 13 are refusals of a job file, which no call here takes */
    "neither list has the action for its product",
    "a sheet whose counts, lines or offsets are wrong",
    "a sheet with a turn that is zero, above 15, or on a second qubit that is not there",
    "the action is not its own inverse",
};

/* Rows of an action whose search comes upon failed subspaces again. */
static const uint64_t harder[ROWS] = {0x16, 0x1a, 0x2b, 0x07, 0x05, 0x04};

/* The vectors as letters, qubit 0 first. */
static void print_letters(const uint64_t *vectors, uint64_t count)
{
    for (uint64_t i = 0; i < count; i++) {
        putchar(' ');
        for (int q = 0; q < N; q++)
            putchar("IXZY"[(vectors[i] >> q & 1) | (vectors[i] >> (N + q) & 1) << 1]);
    }
    putchar('\n');
}

/* Says of which list, and whether its product is the action. */
static void print_rebuilt(const char *which, const uint64_t *list, uint64_t length, const uint64_t *action)
{
    uint64_t product[ROWS], count;
    uint64_t reply = turnlist_rebuild(N, list, (size_t)length, product, ROWS, &count);
    int same = reply == TURNLIST_ANSWERED && memcmp(product, action, sizeof product) == 0;
    printf("rebuilt from the %s list: %s\n", which, same ? "the same action" : "another action");
}

/* Whether a call answered; if not, says its refusal. */
static int answered(uint64_t reply)
{
    if (reply != TURNLIST_ANSWERED)
        printf("refused, %" PRIu64 ": %s\n", reply, meanings[reply]);
    return reply == TURNLIST_ANSWERED;
}

/* Puts a sheet in force if it passes; if not, the former one stays. */
static int load(const uint8_t *bytes, size_t length)
{
    if (!answered(turnlist_sheet(bytes, length)))
        return 0;
    in_force.bytes = bytes;
    in_force.length = length;
    return 1;
}

/* Loads the sheet of a file, and lists a gate of it; then a sheet that is refused. */
static int lab(const char *path)
{
    static uint8_t sheet[SHEET_BYTES];
    static const uint8_t swap_first[] = {ISWAP, 0, 1};
    uint64_t action[ROWS], minimal[MINIMAL_WORDS], count, looks;
    FILE *file = fopen(path, "rb");
    size_t length = file ? fread(sheet, 1, sizeof sheet, file) : 0;
    if (file)
        fclose(file);

    if (!load(sheet, length))
        return 1;
    printf("the lab's own sheet: %d gates\n", in_force.bytes[0]);
    if (!answered(turnlist_gates(N, in_force.bytes, in_force.length, swap_first, sizeof swap_first, action, ROWS, &count))
        || !answered(turnlist_minimal(N, action, ROWS, 1000000, minimal, MINIMAL_WORDS, &count, &looks)))
        return 1;
    printf("its iSWAP on qubits 0 and 1, minimal: %" PRIu64 " turns:", count);
    print_letters(minimal, count);

    printf("the sheet without its last byte: ");
    load(sheet, length - 1);
    printf("in force: %d bytes\n", (int)in_force.length);
    return 0;
}

int main(int argc, char **argv)
{
    uint64_t action[ROWS], minimal[MINIMAL_WORDS], greedy[GREEDY_WORDS], commuting[MINIMAL_WORDS], fixed[ROWS];
    uint64_t count, minimal_count, greedy_count, looks, chosen;
    uint64_t memory[MEMORY_WORDS];

    if (!answered(turnlist_gates(N, in_force.bytes, in_force.length, layer, sizeof layer, action, ROWS, &count)))
        return 1;
    printf("layer on %d qubits: H 0, CX 1 2\n", N);

    if (!answered(turnlist_minimal(N, action, ROWS, 1000000, minimal, MINIMAL_WORDS, &minimal_count, &looks)))
        return 1;
    printf("minimal: %" PRIu64 " turns, %" PRIu64 " looks:", minimal_count, looks);
    print_letters(minimal, minimal_count);
    print_rebuilt("minimal", minimal, minimal_count, action);

    if (!answered(turnlist_greedy(N, action, ROWS, greedy, GREEDY_WORDS, &greedy_count)))
        return 1;
    printf("greedy: %" PRIu64 " turns:", greedy_count);
    print_letters(greedy, greedy_count);
    print_rebuilt("greedy", greedy, greedy_count, action);

    /* H and CX undo themselves, and here they are on different qubits */
    if (!answered(turnlist_self_inverse(N, action, ROWS, commuting, MINIMAL_WORDS, &count)))
        return 1;
    printf("self-inverse: %" PRIu64 " turns that commute:", count);
    print_letters(commuting, count);
    print_rebuilt("self-inverse", commuting, count, action);

    if (!answered(turnlist_fixed_space(N, action, ROWS, fixed, ROWS, &count)))
        return 1;
    printf("fixed space: %" PRIu64 " vectors:", count);
    print_letters(fixed, count);

    if (!answered(turnlist_shorter(N, action, ROWS, greedy, (size_t)greedy_count, minimal, (size_t)minimal_count, &chosen)))
        return 1;
    count = chosen == 1 ? greedy_count : minimal_count;
    printf("shorter of the greedy and the minimal list: %" PRIu64 " turns:", count);
    print_letters(chosen == 1 ? greedy : minimal, count);

    printf("with the last turn of each left off: ");
    answered(turnlist_shorter(N, action, ROWS, greedy, (size_t)greedy_count - 1, minimal, (size_t)minimal_count - 1, &chosen));

    printf("minimal with one look too few: ");
    answered(turnlist_minimal(N, action, ROWS, looks - 1, minimal, MINIMAL_WORDS, &count, &looks));

    if (!answered(turnlist_minimal(N, harder, ROWS, 1000000, minimal, MINIMAL_WORDS, &count, &looks)))
        return 1;
    printf("a harder layer: %" PRIu64 " looks,", looks);
    if (!answered(turnlist_minimal_remembering(N, harder, ROWS, 1000000, memory, MEMORY_WORDS,
                                               minimal, MINIMAL_WORDS, &count, &looks)))
        return 1;
    printf(" with a memory of 16 failed subspaces %" PRIu64 "\n", looks);

    printf("as a self-inverse layer: ");
    answered(turnlist_self_inverse(N, harder, ROWS, commuting, MINIMAL_WORDS, &count));
    return argc < 2 ? 0 : lab(argv[1]);
}
