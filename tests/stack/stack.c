/* How much stack each call takes: it is run on a thread whose stack was filled with a pattern, and the words that lost the pattern
 * are counted. Prints the most of each call over its layers, in bytes; the thread's own share is taken off. */
#define _POSIX_C_SOURCE 200809L
#include <pthread.h>
#include <stdint.h>
#include <stdio.h>
#include <stdlib.h>
#include <string.h>
#include "turnlist.h"

enum { QUBITS = TURNLIST_MOST_QUBITS, ROOM = 1 << 20, BYTES = 3 * 8 * QUBITS, MEMORY = 6500, PATTERN = 0xa5, CALLS = 9 };

static unsigned char *stack;
static uint64_t state = 1;

static uint64_t next(uint64_t below) {
    state = state * 6364136223846793005u + 1442695040888963407u;
    return (state >> 33) % below;
}

struct work {
    int kind;
    uint64_t rows[TURNLIST_ROWS(QUBITS)];
    uint64_t list[TURNLIST_GREEDY_WORDS(QUBITS)], minimal[TURNLIST_MINIMAL_WORDS(QUBITS)];
    uint64_t count, minimal_count, looks, chosen;
    uint64_t memory[MEMORY];
    uint8_t gates[BYTES];
};

static void *run(void *lent) {
    struct work *w = lent;
    size_t rows = TURNLIST_ROWS(QUBITS);
    switch (w->kind) {
    case 1:
        turnlist_minimal(QUBITS, w->rows, rows, 100000, w->minimal, TURNLIST_MINIMAL_WORDS(QUBITS), &w->minimal_count, &w->looks);
        break;
    case 2:
        turnlist_greedy(QUBITS, w->rows, rows, w->list, TURNLIST_GREEDY_WORDS(QUBITS), &w->count);
        break;
    case 3:
        turnlist_rebuild(QUBITS, w->list, w->count, w->rows, rows, &w->count);
        break;
    case 4:
        turnlist_gates(QUBITS, turnlist_six_gates, TURNLIST_SIX_GATES_BYTES, w->gates, BYTES, w->rows, rows, &w->count);
        break;
    case 5:
        turnlist_fixed_space(QUBITS, w->rows, rows, w->list, rows, &w->count);
        break;
    case 6:
        turnlist_shorter(QUBITS, w->rows, rows, w->list, w->count, w->minimal, w->minimal_count, &w->chosen);
        break;
    case 7:
        turnlist_minimal_remembering(QUBITS, w->rows, rows, 100000, w->memory, MEMORY, w->minimal,
                                     TURNLIST_MINIMAL_WORDS(QUBITS), &w->minimal_count, &w->looks);
        break;
    case 8:
        w->count = turnlist_sheet(turnlist_six_gates, TURNLIST_SIX_GATES_BYTES);
        break;
    case 9:
        turnlist_self_inverse(QUBITS, w->rows, rows, w->list, TURNLIST_MINIMAL_WORDS(QUBITS), &w->count);
        break;
    }
    return NULL;
}

/* The bytes of stack that one call takes, on a thread of its own. */
static size_t used(struct work *w, int kind) {
    pthread_attr_t attributes;
    pthread_t thread;
    size_t low = 0;
    w->kind = kind;
    memset(stack, PATTERN, ROOM);
    if (pthread_attr_init(&attributes) != 0 || pthread_attr_setstack(&attributes, stack, ROOM) != 0
        || pthread_create(&thread, &attributes, run, w) != 0 || pthread_join(thread, NULL) != 0) {
        fprintf(stderr, "stack: no thread\n");
        exit(1);
    }
    while (low < ROOM && stack[low] == PATTERN) low++;
    return ROOM - low;
}

/* Gates up to a number, on qubits at random: 5 for all, 0 for H alone, from which the search goes deepest. */
static void layer(struct work *w, int highest, int gates) {
    memset(w->gates, 0, BYTES);
    for (int i = 0; i < gates; i++) {
        uint64_t a = highest == 0 ? (uint64_t)i % QUBITS : next(QUBITS);
        w->gates[3 * i] = (uint8_t)next((uint64_t)highest + 1);
        w->gates[3 * i + 1] = (uint8_t)a;
        w->gates[3 * i + 2] = (uint8_t)((a + 1 + next(QUBITS - 1)) % QUBITS);
    }
}

/* SWAPs of the qubits two by two: self-inverse, as H alone is. The gates behind them, H on qubit 0, are an even number. */
static void swaps(struct work *w) {
    memset(w->gates, 0, BYTES);
    for (int i = 0; i < QUBITS / 2; i++) {
        w->gates[3 * i] = TURNLIST_SWAP;
        w->gates[3 * i + 1] = (uint8_t)(2 * i);
        w->gates[3 * i + 2] = (uint8_t)(2 * i + 1);
    }
}

int main(void) {
    static struct work w;
    static const char *const names[] = {
        "", "turnlist_minimal", "turnlist_greedy", "turnlist_rebuild", "turnlist_gates", "turnlist_fixed_space",
        "turnlist_shorter", "turnlist_minimal_remembering", "turnlist_sheet", "turnlist_self_inverse",
    };
    size_t most[CALLS + 1] = {0}, bare;
    stack = aligned_alloc(4096, ROOM);
    if (stack == NULL) return 1;
    bare = used(&w, 0);
    for (int i = 0; i < 200; i++) {
        if (i % 7 == 6)
            swaps(&w);
        else
            layer(&w, i % 7, i % 7 == 0 ? QUBITS : 8 * QUBITS);
        int order[CALLS] = {4, 1, 7, 5, 9, 2, 6, 3, 8}; /* the greedy list is held against the minimal one, then rebuilt */
        for (int k = 0; k < CALLS; k++) {
            size_t bytes = used(&w, order[k]) - bare;
            if (most[order[k]] < bytes) most[order[k]] = bytes;
        }
    }
    for (int k = 1; k <= CALLS; k++) printf("%s %zu\n", names[k], most[k]);
    free(stack);
    return 0;
}
