/* The two passes in plain C on the same full board, step for step: see crates/full_board/src/main.rt. */
#include <stdio.h>
#include <stdlib.h>
#include <string.h>

enum { INPUTS = 32, GATES = 96, PINS = 4, WIRES = GATES * PINS, SIZE = INPUTS + GATES + WIRES };

typedef struct { int is_or; int first; } gate;

static unsigned char applied[INPUTS], start[SIZE];
static gate gates[GATES];
static int source[WIRES]; /* place of the source in sheet order */

static unsigned char lub(unsigned char a, unsigned char b) { return a == b ? a : 2; }

static unsigned char all(const unsigned char *pins) {
    unsigned char mark = 1;
    for (int p = 0; p < PINS; p++) {
        if (pins[p] == 0) return 0;
        if (pins[p] == 2) mark = 2;
    }
    return mark;
}

static unsigned char any(const unsigned char *pins) {
    unsigned char mark = 0;
    for (int p = 0; p < PINS; p++) {
        if (pins[p] == 1) return 1;
        if (pins[p] == 2) mark = 2;
    }
    return mark;
}

static unsigned char driven(const unsigned char *marks, int place) {
    if (place < INPUTS) return applied[place];
    if (place < INPUTS + GATES) {
        const gate *g = &gates[place - INPUTS];
        const unsigned char *pins = marks + INPUTS + GATES + g->first;
        return g->is_or ? any(pins) : all(pins);
    }
    return marks[source[place - INPUTS - GATES]];
}

static int settle(unsigned char *marks, int second) {
    static unsigned char next[SIZE];
    int steps = 0;
    for (;;) {
        for (int i = 0; i < SIZE; i++) {
            unsigned char d = driven(marks, i);
            next[i] = second ? d : lub(marks[i], d);
        }
        if (memcmp(next, marks, SIZE) == 0) return steps;
        memcpy(marks, next, SIZE);
        steps++;
    }
}

int main(int argc, char **argv) {
    long times = argc > 1 ? atol(argv[1]) : 1;
    for (int i = 0; i < INPUTS; i++) { applied[i] = 1; start[i] = i != 0; }
    for (int g = 0; g < GATES; g++) {
        gates[g].is_or = g == 0;
        gates[g].first = g * PINS;
        for (int p = 0; p < PINS; p++) {
            int w = g * PINS + p;
            if (g == 0) source[w] = p == 0 ? 0 : INPUTS + GATES - 1;
            else source[w] = p == 0 ? INPUTS + g - 1 : (g + p) % 31 + 1;
            start[INPUTS + GATES + w] = g != 0 && p != 0;
        }
    }
    static unsigned char marks[SIZE];
    int first = 0, second = 0, open = 0;
    for (long t = 0; t < times; t++) {
        memcpy(marks, start, SIZE);
        first = settle(marks, 0);
        second = settle(marks, 1);
        open = 0;
        for (int i = 0; i < SIZE; i++) open += marks[i] == 2;
    }
    printf("%d %d %d\n", first, second, open);
    return 0;
}
