/* Turn lists for Clifford layers: the calls by C's conventions, for C99 and C++.
 *
 * Link with target/staticlib/libcabi.a, which `tools/build cabi` writes (x86-64 Linux):
 *
 *     cc -Iinclude program.c -Ltarget/staticlib -lcabi
 *
 * n is the qubit count, 0 to 32. A vector is a 64-bit word: bit q is the x of qubit q, bit n + q its z, all others 0.
 * An action is 2n vectors, its rows: row k is the image of basis vector k. The turn of v sends u to u + <u,v>v, where
 * <u,v> is the sum modulo 2 of u's x times v's z and u's z times v's x over all qubits. The product of a list starts
 * from the identity and applies the turns in order.
 *
 * Each call asks its questions in the order of its refusals below, and returns the number of the first one answered no.
 *
 *   - 0: an answer. *count says how many words stand at the start of out, and the words past them are unchanged.
 *     turnlist_shorter lists nothing: *chosen says which of the lent lists is the answer. turnlist_sheet has nothing to
 *     say but its number.
 *   - Any other number: a refusal. Nothing is listed, and every lent word is unchanged, *count, *looks and *chosen too;
 *     but a lent memory may change at 6.
 *
 * What the caller owes, and nothing checks:
 *
 *   - Each pointer is aligned, and valid for as many words (sheet, gates: bytes) as the length behind it says. Where
 *     that length is 0 the pointer is not followed, and may be null. count, looks and chosen are never null.
 *   - What is lent for writing (out, memory, count, looks, chosen) overlaps nothing else that is lent, and no other
 *     thread touches it during the call. What is lent for reading is not written during the call, and may overlap.
 *   - The thread has stack to spare: 128 KiB are enough for turnlist_minimal and turnlist_minimal_remembering, 16 KiB
 *     for the others. tests/stack/run measures what they take.
 *
 * The calls keep nothing from one call to the next, so that threads may call at the same time. */
#ifndef TURNLIST_H_INCLUDED
#define TURNLIST_H_INCLUDED

#include <stddef.h>
#include <stdint.h>

#ifdef __cplusplus
extern "C" {
#endif

#define TURNLIST_MOST_QUBITS 32

/* How many words an action takes, and how many output words the minimal and the greedy list want. The list of a
 * self-inverse action wants as many as the minimal one, the fixed space as many as an action takes. */
#define TURNLIST_ROWS(n) (2 * (n))
#define TURNLIST_MINIMAL_WORDS(n) (2 * (n) + 1)
#define TURNLIST_GREEDY_WORDS(n) (4 * (n) + 2)

/* How many words of a lent memory one entry takes. */
#define TURNLIST_ENTRY_WORDS 65

/* What a call returns. 12 and 13 are refusals of a job file, which no call here takes. There is no 7. */
enum turnlist_reply {
    TURNLIST_ANSWERED = 0,
    TURNLIST_TOO_MANY_QUBITS = 1,  /* n is more than 32 */
    TURNLIST_WRONG_ROW_COUNT = 2,  /* not exactly 2n rows are lent */
    TURNLIST_ROW_TOO_WIDE = 3,     /* a row has a bit from 2n up */
    TURNLIST_NOT_SYMPLECTIC = 4,   /* the rows do not pair as the basis does */
    TURNLIST_OUTPUT_TOO_SHORT = 5, /* too few output words */
    TURNLIST_SPENT = 6,            /* the search would look further than the budget */
    TURNLIST_VECTOR_TOO_WIDE = 8,  /* a vector has a bit from 2n up */
    TURNLIST_UNKNOWN_GATE = 9,     /* a gate that is not on the sheet */
    TURNLIST_QUBIT_TOO_HIGH = 10,  /* a qubit that is not below n */
    TURNLIST_EQUAL_QUBITS = 11,    /* the two qubits of a gate are equal */
    TURNLIST_NEITHER_MATCHES = 14, /* neither list has the action for its product */
    TURNLIST_MALFORMED_SHEET = 15, /* a sheet whose counts, lines or offsets are wrong */
    TURNLIST_BAD_TURN = 16,        /* a sheet with a turn that is zero, above 15, or on a second qubit that is not there */
    TURNLIST_NOT_SELF_INVERSE = 17 /* the action times itself is not the identity */
};

/* The gates of turnlist_six_gates. */
enum turnlist_gate {
    TURNLIST_H = 0,      /* a */
    TURNLIST_S = 1,      /* a */
    TURNLIST_ROOT_X = 2, /* a */
    TURNLIST_CX = 3,     /* a b */
    TURNLIST_CZ = 4,     /* a b */
    TURNLIST_SWAP = 5    /* a b */
};

/* Our six gates as a sheet. See turnlist_sheet for its form. */
#define TURNLIST_SIX_GATES_BYTES 37
static const uint8_t turnlist_six_gates[TURNLIST_SIX_GATES_BYTES] = {
    6,                                                                                             /* gates */
    1, 1, 25, 0, 1, 1, 26, 0, 1, 1, 27, 0, 2, 3, 28, 0, 2, 3, 31, 0, 2, 3, 34, 0,                  /* their lines */
    5, 4, 1, 4, 6, 2, 4, 12, 8, 3, 15, 12,                                                         /* their turns */
};

/* The minimal list of an action: *count turns whose product is the action, and no list of it is shorter.
 *
 * A look is one vector drawn by the search. *looks is how many the search drew, at most the budget.
 *
 * *count is r or r + 1, where r is the rank of I + F. A symplectic action is refused only for its buffers (5) or its
 * budget (6).
 *
 * Wants 2n rows and at least 2n + 1 output words. Refuses with 1 to 6. The looks of a refusal are 0, but at 6 they are
 * the budget. */
uint64_t turnlist_minimal(uint64_t n, const uint64_t *rows, size_t row_count, uint64_t budget,
                          uint64_t *out, size_t out_len, uint64_t *count, uint64_t *looks);

/* The same with a memory of failed subspaces, so that none that it holds is searched twice.
 *
 * Each 65 words of the lent memory hold one: its dimension, then its reduced basis, the rest zero. A subspace is entered
 * when it is known to fail, in order, while there is room for a whole entry; one that is held fails without a look. The
 * memory starts empty in each call: what it held before is not read. On a refusal by 1 to 5 it is unchanged; else it holds
 * the entries of this call, and the words beyond them are unchanged.
 *
 * The list is that of turnlist_minimal wherever that answers within the budget, and the looks are never more. It is spent
 * (6) only where that is spent too. With fewer than 65 words it is turnlist_minimal. */
uint64_t turnlist_minimal_remembering(uint64_t n, const uint64_t *rows, size_t row_count, uint64_t budget,
                                      uint64_t *memory, size_t memory_len, uint64_t *out, size_t out_len,
                                      uint64_t *count, uint64_t *looks);

/* The greedy list of an action: *count turns, at most 4n, whose product is the action.
 *
 * Wants 2n rows and at least 4n + 2 output words. Refuses with 1 to 5. */
uint64_t turnlist_greedy(uint64_t n, const uint64_t *rows, size_t row_count,
                         uint64_t *out, size_t out_len, uint64_t *count);

/* The fixed space of an action F, all v with vF = v, where vF is the sum modulo 2 of the rows k with bit k of v set.
 *
 * The *count vectors are its reduced basis: at the lowest one of each, its pivot, no other has a one, and the pivots
 * ascend. *count is 2n - r, where r is the rank of I + F.
 *
 * Wants 2n rows and at least 2n output words, whatever the count. Refuses with 1 to 5. */
uint64_t turnlist_fixed_space(uint64_t n, const uint64_t *rows, size_t row_count,
                              uint64_t *out, size_t out_len, uint64_t *count);

/* A list of a self-inverse action F, one with F times F equal to the identity, by no search: *count turns whose product is
 * the action, and no list of it is shorter. All its vectors pair to 0 with each other, so the turns commute.
 *
 * Several lists may be such; which of them is listed is the call's choice. *count is 0 for the identity. For any other F it
 * is r + 1 if <u,uF> = 0 for all u, and r if not, where r is the rank of I + F.
 *
 * Wants 2n rows and at least 2n + 1 output words. Refuses with 1 to 5, then with 17 if F times F is not the identity. */
uint64_t turnlist_self_inverse(uint64_t n, const uint64_t *rows, size_t row_count,
                               uint64_t *out, size_t out_len, uint64_t *count);

/* The product of any list of vectors: its 2n rows, and *count is 2n. A zero vector changes nothing.
 *
 * Wants exactly 2n output words. Refuses with 1, 2 (of the output words), 8. */
uint64_t turnlist_rebuild(uint64_t n, const uint64_t *vectors, size_t vector_count,
                          uint64_t *out, size_t out_len, uint64_t *count);

/* Of two lists the shorter one whose product is the action: *chosen is 1 for the first, 2 for the second.
 *
 * A list matches if no vector of it has a bit from 2n up and its product is the action. Where both match, the shorter
 * is chosen, and the first at equal length; where one does, that one. Zero vectors count towards the length.
 *
 * Wants 2n rows. Refuses with 1 to 4, then with 14 if neither list matches. */
uint64_t turnlist_shorter(uint64_t n, const uint64_t *rows, size_t row_count, const uint64_t *first, size_t first_len,
                          const uint64_t *second, size_t second_len, uint64_t *chosen);

/* Whether a gate sheet can be put in force: 0, or the number of its refusal.
 *
 * Byte 0 is the gate count, 1 to 64. Each gate then has 4 bytes: its qubit count (1 or 2), its turn count (0 to 6), and the
 * offset of its turns from the sheet's start, 16 bits, little-endian. A turn is one byte: bit 0 is x of the first qubit, bit
 * 1 x of the second, bits 2 and 3 are their z. The turns of gates may overlap each other and the table, and a sheet may be
 * longer than what it uses.
 *
 * Refuses with 15 if a count is missing or out of its range, a gate's 4 bytes are cut short, or an offset plus its turn
 * count passes the sheet's length; then, once the whole sheet passes that, with 16 if a turn is zero, above 15, or touches
 * the second qubit of a one-qubit gate. The sheet in force stays with the caller: one that is refused leaves the former. */
uint64_t turnlist_sheet(const uint8_t *sheet, size_t sheet_len);

/* The action of a sequence of gates: its 2n rows, and *count is 2n.
 *
 * A gate is 3 bytes: its number on the sheet in force, counted from 0, a, b. Gates on one qubit do not read b. Bytes short
 * of a last whole gate are not read. A gate without turns changes nothing, but its questions are asked.
 *
 * Wants exactly 2n output words. Refuses with 1, 2 (of the output words), 15, 16 (of the sheet); then gate by gate with 9,
 * 10, 11. */
uint64_t turnlist_gates(uint64_t n, const uint8_t *sheet, size_t sheet_len, const uint8_t *gates, size_t byte_count,
                        uint64_t *out, size_t out_len, uint64_t *count);

#ifdef __cplusplus
}
#endif

#endif
