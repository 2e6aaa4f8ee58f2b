// A plain checker of LRAT proofs beside DIMACS files, beside which bench/measure/proofs.sh measures: RUP and RAT lines, and deletions. It keeps
// the literals of all clauses in one array, which is gone over again where most of it was deleted, and makes an index of literals once
// the first RAT line comes.
// usage: proof_check CNF PROOF
#include <stdio.h>
#include <stdlib.h>
#include <string.h>
#include <time.h>

typedef struct { long id, start, length; } Clause;

static int *lits;
static long lits_count, lits_room, dead;
static Clause *clauses;
static long count, room, last;
static signed char *marks;
static long width;
static long *set, set_count, set_room;
static long **index_lists, *index_counts, *index_rooms, index_width;
static int has_index;

static void *grown(void *old, long *size, long wanted, size_t each) {
    if (wanted <= *size) return old;
    while (*size < wanted) *size = 2 * *size + 64;
    void *now = realloc(old, *size * each);
    if (!now) exit(5);
    return now;
}

static long at(int lit) { return lit < 0 ? 2L * -lit + 1 : 2L * lit; }

static void mark(int lit) {
    long place = at(lit), old = width;
    marks = grown(marks, &width, place + 2, 1);
    memset(marks + old, 0, width - old);
    if (marks[place]) return;
    set = grown(set, &set_room, set_count + 1, sizeof *set);
    set[set_count++] = place;
    marks[place] = 1;
}

static int is_marked(int lit) { long place = at(lit); return place < width && marks[place]; }

static void unmark_to(long kept) { while (set_count > kept) marks[set[--set_count]] = 0; }

// The live clause of an id. Ids rise, so that it is found by halving.
static Clause *find(long id) {
    long low = 0, high = count;
    while (low < high) {
        long middle = (low + high) / 2;
        if (clauses[middle].id < id) low = middle + 1; else high = middle;
    }
    return low < count && clauses[low].id == id && clauses[low].length >= 0 ? &clauses[low] : 0;
}

static int holds(const Clause *c, int lit) {
    for (long i = 0; i < c->length; i++) if (lits[c->start + i] == lit) return 1;
    return 0;
}

static void file(const Clause *c) {
    for (long i = 0; i < c->length; i++) {
        long place = at(lits[c->start + i]), wide = index_width;
        if (place >= wide) {
            index_lists = grown(index_lists, &index_width, place + 2, sizeof *index_lists);
            index_counts = realloc(index_counts, index_width * sizeof *index_counts);
            index_rooms = realloc(index_rooms, index_width * sizeof *index_rooms);
            if (!index_counts || !index_rooms) exit(5);
            for (long k = wide; k < index_width; k++) index_lists[k] = 0, index_counts[k] = index_rooms[k] = 0;
        }
        index_lists[place] = grown(index_lists[place], &index_rooms[place], index_counts[place] + 1, sizeof **index_lists);
        index_lists[place][index_counts[place]++] = c->id;
    }
}

static void make_index(void) {
    has_index = 1;
    for (long i = 0; i < count; i++) if (clauses[i].length >= 0) file(&clauses[i]);
}

static void tidy(void) {
    if (dead <= lits_count / 2) return;
    long to = 0, kept = 0;
    for (long i = 0; i < count; i++) {
        Clause c = clauses[i];
        if (c.length < 0) continue;
        memmove(lits + to, lits + c.start, c.length * sizeof *lits);
        c.start = to;
        to += c.length;
        clauses[kept++] = c;
    }
    count = kept, lits_count = to, dead = 0;
    for (long k = 0; k < index_width; k++) free(index_lists[k]), index_lists[k] = 0, index_counts[k] = index_rooms[k] = 0;
    has_index = 0;
}

// The clause of a hint: 0 where it fails, 1 where it forces a literal, which is marked, 2 where it is false.
static int look(long id) {
    Clause *c = find(id);
    int unit = 0;
    if (!c) return 0;
    for (long i = 0; i < c->length; i++) {
        int lit = lits[c->start + i];
        if (is_marked(-lit) || lit == unit) continue;
        if (unit) return 0;
        unit = lit;
    }
    if (!unit) return 2;
    if (is_marked(unit)) return 0;
    mark(unit);
    return 1;
}

static long *groups, group_count, group_room;

static int is_grouped(long id) {
    for (long i = 0; i < group_count; i++) if (groups[i] == id) return 1;
    return 0;
}

// Whether the hints show the clause.
static int judged(const Clause *c, const long *hints, long n) {
    long i = 0;
    for (long k = 0; k < c->length; k++) mark(-lits[c->start + k]);
    for (; i < n && hints[i] > 0; i++) {
        int said = look(hints[i]);
        if (said != 1) return said;
    }
    if (!c->length) return 0;
    int pivot = lits[c->start], open = 0;
    long kept = set_count;
    group_count = 0;
    for (; i < n; i++) {
        if (hints[i] < 0) {
            Clause *g = find(-hints[i]);
            if (open || !g || !holds(g, -pivot)) return 0;
            groups = grown(groups, &group_room, group_count + 1, sizeof *groups);
            groups[group_count++] = g->id;
            unmark_to(kept);
            open = !holds(g, pivot);
            for (long k = 0; open && k < g->length; k++) if (lits[g->start + k] != -pivot && is_marked(lits[g->start + k])) open = 0;
            for (long k = 0; open && k < g->length; k++) if (lits[g->start + k] != -pivot) mark(-lits[g->start + k]);
        } else if (open) {
            int said = look(hints[i]);
            if (!said) return 0;
            if (said == 2) open = 0;
        }
    }
    if (open) return 0;
    if (!has_index) make_index();
    long place = at(-pivot);
    for (long k = 0; place < index_width && k < index_counts[place]; k++) {
        Clause *g = find(index_lists[place][k]);
        if (g && holds(g, -pivot) && !holds(g, pivot) && !is_grouped(g->id)) return 0;
    }
    return 1;
}

static int number(FILE *in, long *out) {
    int c = getc_unlocked(in);
    while (c == ' ' || c == '\n' || c == '\r' || c == '\t') c = getc_unlocked(in);
    if (c == 'c' || c == 'p') {
        while (c != '\n' && c != EOF) c = getc_unlocked(in);
        return number(in, out);
    }
    if (c == EOF) return 0;
    if (c == 'd') { *out = 0; return 2; }
    int negative = c == '-';
    if (negative) c = getc_unlocked(in);
    long n = 0;
    for (; c >= '0' && c <= '9'; c = getc_unlocked(in)) n = 10 * n + (c - '0');
    *out = negative ? -n : n;
    return 1;
}

static Clause *begin(long id) {
    clauses = grown(clauses, &room, count + 1, sizeof *clauses);
    clauses[count] = (Clause){id, lits_count, 0};
    return &clauses[count];
}

static void push(Clause *c, long lit) {
    lits = grown(lits, &lits_room, lits_count + 1, sizeof *lits);
    lits[lits_count++] = lit;
    c->length++;
}

static void keep(Clause *c) {
    last = c->id;
    count++;
    if (has_index) file(c);
}

static void delete(FILE *in) {
    long id;
    while (number(in, &id) && id) {
        Clause *c = find(id);
        if (c) dead += c->length, c->length = -1;
    }
    tidy();
}

// Whether the proof is accepted.
static int check(FILE *in) {
    long id, n, hint_room = 0, hint_count, *hints = 0;
    while (number(in, &id)) {
        Clause *c = begin(id);
        int kind = number(in, &n);
        if (kind == 2) { delete(in); continue; }
        for (; n; kind = number(in, &n)) push(c, n);
        for (hint_count = 0; number(in, &n) && n; hints[hint_count++] = n)
            hints = grown(hints, &hint_room, hint_count + 1, sizeof *hints);
        int good = id > last && judged(c, hints, hint_count);
        unmark_to(0);
        if (!good) return 0;
        if (!c->length) return 1;
        keep(c);
    }
    return 0;
}

int main(int argc, char **argv) {
    if (argc != 3) return 2;
    FILE *cnf = fopen(argv[1], "r"), *proof = fopen(argv[2], "r");
    if (!cnf || !proof) return 3;
    long n;
    while (1) {
        Clause *c = begin(last + 1);
        int kind;
        while ((kind = number(cnf, &n)) && n) push(c, n);
        if (!kind) break;
        keep(c);
    }
    int accepted = check(proof);
    printf("%s %ld ms\n", accepted ? "accepted" : "refused", clock() * 1000 / CLOCKS_PER_SEC);
    return accepted ? 0 : 6;
}
