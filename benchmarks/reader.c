/* Reads a well-formed gate list, runs both passes and prints the sheet, in plain C. It does not check the list. */
#include <stdio.h>
#include <stdlib.h>
#include <string.h>

enum { MOST = 65536, INPUTS = 32, GATES = 96, WIRES = 384, SIZE = INPUTS + GATES + WIRES };

static char text[MOST + 1];
static const char *names[INPUTS + GATES];
static int lengths[INPUTS + GATES];
static int inputs, gates, wires;
static int rule[GATES], inverted[GATES], first[GATES], pins[GATES];
static const char *source_name[WIRES];
static int source_length[WIRES], source[WIRES];
static unsigned char applied[INPUTS], x[INPUTS], y[GATES], z[WIRES], marks[SIZE], firsts[SIZE], next[SIZE];

static const char *at = text;

static const char *field(int *length) {
    const char *from = at;
    while (*at != ' ' && *at != '\n') at++;
    *length = (int)(at - from);
    at++;
    return from;
}

static int number(void) { int n, v = 0; const char *f = field(&n); for (int i = 0; i < n; i++) v = 10 * v + f[i] - '0'; return v; }

static void word(int g) {
    static const char *words[] = { "buf", "not", "and", "nand", "or", "nor", "xor", "xnor", "maj", "min" };
    int n; const char *f = field(&n);
    for (int w = 0; w < 10; w++)
        if ((int)strlen(words[w]) == n && memcmp(f, words[w], n) == 0) { inverted[g] = w % 2; rule[g] = w < 4 ? 0 : w / 2 - 1; }
}

static int seek(const char *name, int length) {
    for (int i = 0; i < inputs + gates; i++) if (lengths[i] == length && memcmp(names[i], name, length) == 0) return i;
    return -1;
}

static unsigned char lub(unsigned char a, unsigned char b) { return a == b ? a : 2; }

static unsigned char gate(int g, const unsigned char *p) {
    int n = pins[g], zeros = 0, ones = 0;
    for (int i = 0; i < n; i++) { zeros += p[i] == 0; ones += p[i] == 1; }
    unsigned char m;
    switch (rule[g]) {
    case 0: m = zeros ? 0 : ones == n ? 1 : 2; break;
    case 1: m = ones ? 1 : zeros == n ? 0 : 2; break;
    case 2: m = zeros + ones < n ? 2 : ones % 2; break;
    default: m = ones >= 2 ? 1 : zeros >= 2 ? 0 : 2;
    }
    return inverted[g] && m < 2 ? 1 - m : m;
}

static void settle(int second) {
    int size = inputs + gates + wires;
    for (;;) {
        for (int i = 0; i < size; i++) {
            unsigned char d = i < inputs ? applied[i]
                : i < inputs + gates ? gate(i - inputs, marks + inputs + gates + first[i - inputs])
                : marks[source[i - inputs - gates]];
            next[i] = second ? d : lub(marks[i], d);
        }
        if (memcmp(next, marks, size) == 0) return;
        memcpy(marks, next, size);
    }
}

static void section(const char *heading, int count, int from) {
    printf("%s %d\n", heading, count);
    for (int i = from; i < from + count; i++) { putchar("01?"[firsts[i]]); putchar("01?"[marks[i]]); putchar('\n'); }
}

int main(void) {
    int n;
    size_t size = fread(text, 1, MOST, stdin);
    text[size] = '\n';
    field(&n); inputs = number();
    for (int i = 0; i < inputs; i++) { names[i] = field(&lengths[i]); applied[i] = number(); x[i] = number(); }
    field(&n); gates = number();
    for (int g = 0; g < gates; g++) {
        names[inputs + g] = field(&lengths[inputs + g]);
        word(g);
        pins[g] = number(); first[g] = wires; y[g] = number();
        for (int p = 0; p < pins[g]; p++, wires++) { source_name[wires] = field(&source_length[wires]); z[wires] = number(); }
    }
    for (int w = 0; w < wires; w++) source[w] = seek(source_name[w], source_length[w]);
    memcpy(marks, x, inputs); memcpy(marks + inputs, y, gates); memcpy(marks + inputs + gates, z, wires);
    settle(0);
    memcpy(firsts, marks, sizeof marks);
    settle(1);
    section("inputs", inputs, 0); section("gates", gates, inputs); section("wires", wires, inputs + gates);
    return 0;
}
