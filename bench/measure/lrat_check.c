// A plain reader and checker of LRAT steps, beside which bench/measure/refutation.sh measures: lines ID LITS 0 HINTS 0 of two files, the
// original clauses and the steps. Each step has to follow by its hints.
// usage: lrat_check CLAUSES STEPS
#include <stdio.h>
#include <stdlib.h>
#include <time.h>

static long *starts;
static int *lits;
static signed char *marks;
static long ids, ids_room, count, room, width;
static int *set;
static long set_count, set_room;

static void mark(int lit) {
    long at = lit < 0 ? 2L * -lit + 1 : 2L * lit;
    if (at >= width) {
        long wide = 2 * at + 2;
        marks = realloc(marks, wide);
        for (long i = width; i < wide; i++) marks[i] = 0;
        width = wide;
    }
    if (marks[at]) return;
    if (set_count == set_room) set = realloc(set, (set_room = 2 * set_room + 64) * sizeof *set);
    set[set_count++] = at;
    marks[at] = 1;
}

static int is_marked(int lit) {
    long at = lit < 0 ? 2L * -lit + 1 : 2L * lit;
    return at < width && marks[at];
}

static int number(FILE *in, long *out) {
    int c = getc_unlocked(in);
    while (c == ' ' || c == '\n') c = getc_unlocked(in);
    if (c == EOF) return 0;
    int negative = c == '-';
    if (negative) c = getc_unlocked(in);
    long n = 0;
    for (; c >= '0' && c <= '9'; c = getc_unlocked(in)) n = 10 * n + (c - '0');
    *out = negative ? -n : n;
    return 1;
}

// Whether the clause of the id is false, or forces a literal, which is marked.
static int hint(long id, int *done) {
    int unit = 0;
    for (long i = starts[id]; i < starts[id + 1]; i++) {
        if (is_marked(-lits[i])) continue;
        if (unit) return 0;
        unit = lits[i];
    }
    if (!unit) return *done = 1;
    if (is_marked(unit)) return 0;
    mark(unit);
    return 1;
}

static long read_all(FILE *in, int steps) {
    long id, n, lines = 0;
    while (number(in, &id)) {
        if (id + 2 >= ids_room) starts = realloc(starts, (ids_room = 2 * id + 64) * sizeof *starts);
        if (id != ids + 1) return -1;
        starts[id] = count;
        while (number(in, &n) && n) {
            if (count == room) lits = realloc(lits, (room = 2 * room + 64) * sizeof *lits);
            lits[count++] = n;
            if (steps) mark(-n);
        }
        int done = 0;
        while (number(in, &n) && n)
            if (steps && !done && !hint(n, &done)) return -1;
        if (steps && !done) return -1;
        while (set_count) marks[set[--set_count]] = 0;
        starts[id + 1] = count;
        ids = id;
        lines++;
    }
    return lines;
}

int main(int argc, char **argv) {
    if (argc != 3) return 1;
    FILE *clauses = fopen(argv[1], "r"), *steps = fopen(argv[2], "r");
    if (!clauses || !steps) return 1;
    long given = read_all(clauses, 0);
    clock_t start = clock();
    long taken = read_all(steps, 1);
    printf("C: %ld clauses, %ld steps in %ld ms\n", given, taken, (clock() - start) * 1000 / CLOCKS_PER_SEC);
    return taken < 0;
}
