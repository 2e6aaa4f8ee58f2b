// A plain clause-learning solver with the core's policy and nothing proved: activities that fade, restarts where the last learnt
// clauses span more levels than those before, and deletion of learnt clauses by the levels that they span.
// Beside it bench/measure/core.sh shows which part of a time is the policy's and which the code's.
// usage: core_policy [CONFLICTS] FILE   CONFLICTS is the most that there may be
#include <algorithm>
#include <cstdio>
#include <cstdlib>
#include <utility>
#include <vector>

using Lit = unsigned;    // twice the variable, and one more where it is negated
using Place = unsigned;  // of a clause in `memory`: its length, its span, how often it may still be passed over, its literals
using Number = unsigned long long;
constexpr Place NONE = 0;
constexpr unsigned HEAD = 3, DEAD = ~0u;

struct Watch { Place clause; Lit blocking; };  // the clause's place is doubled, and one more where it has two literals

// Variables by activity: the most active is taken first, and of equal ones that of the greatest number. What is new counts for
// more at each conflict, by a nineteenth; where that comes to 2^58, all is divided by 2^38.
struct Order {
    std::vector<Number> activity;
    std::vector<unsigned> heap;
    std::vector<int> position;
    Number increment = 1ull << 20;

    explicit Order(unsigned count) : activity(count), position(count, -1) {
        for (unsigned variable = 0; variable < count; variable++) insert(variable);
    }

    bool before(unsigned a, unsigned b) const { return activity[a] > activity[b] || (activity[a] == activity[b] && a > b); }

    void put(unsigned variable, int at) { heap[at] = variable; position[variable] = at; }

    void climb(int at) {
        unsigned variable = heap[at];
        for (; at > 0 && before(variable, heap[(at - 1) / 2]); at = (at - 1) / 2) put(heap[(at - 1) / 2], at);
        put(variable, at);
    }

    void sink(int at) {
        unsigned variable = heap[at];
        for (int below = 2 * at + 1; below < (int)heap.size(); at = below, below = 2 * at + 1) {
            if (below + 1 < (int)heap.size() && before(heap[below + 1], heap[below])) below++;
            if (!before(heap[below], variable)) break;
            put(heap[below], at);
        }
        put(variable, at);
    }

    void insert(unsigned variable) {
        if (position[variable] >= 0) return;
        heap.push_back(variable);
        climb(heap.size() - 1);
    }

    unsigned pop() {
        unsigned first = heap[0], end = heap.back();
        heap.pop_back();
        position[first] = -1;
        if (!heap.empty() && end != first) { put(end, 0); sink(0); }
        return first;
    }

    void bump(unsigned variable) {
        activity[variable] += increment;
        if (position[variable] >= 0) climb(position[variable]);
    }

    void decay() {
        increment += increment / 19;
        if (increment < 1ull << 58) return;
        increment >>= 38;
        for (Number& one : activity) one >>= 38;
        for (int at = heap.size(); at-- > 0;) sink(at);  // there are new ties
    }
};

// Restarts: where the average of the last 32 spans or so is over 110 percent of that of the last 8192, and ten conflicts came,
// or one for each hundred literals that are true.
struct Restarts {
    Number fast = 0, slow = 0, conflicts = 0, last = 0;
    Number taken_in_turn = 0, taken_else = 0;  // how many literals conflicts took back

    void note(unsigned span) {
        Number one = (Number)span << 32;
        if (conflicts++ == 0) fast = slow = one;
        unsigned k = 1;
        while (k < 13 && 2ull << k <= conflicts) k++;
        fast = fast + (one >> 5) - (fast >> 5);
        slow = slow + (one >> k) - (slow >> k);
    }

    bool due(size_t trues) const { return conflicts >= last + std::max<Number>(10, trues / 100) && fast > slow / 100 * 110; }

    // From 500 to 2,500 conflicts variables are decided in turn, while that takes back at most twice as much as was taken back else.
    bool in_turn() const { return 500 <= conflicts && conflicts < 2500 && taken_in_turn <= 2 * taken_else; }

    void weigh(size_t taken) { (in_turn() ? taken_in_turn : taken_else) += taken; }
};

struct Solver {
    std::vector<unsigned> memory{0};
    size_t waste = 0;
    std::vector<std::vector<Watch>> watches;  // by the literal that is watched
    std::vector<signed char> value;           // by literal: 1 true, -1 false, 0 open
    std::vector<unsigned> level;
    std::vector<Place> reason;
    std::vector<bool> last, output;  // an output is the greatest variable of a clause of at least two literals
    std::vector<char> mark;  // 1 in the clause or met below, 2 resolved
    std::vector<Lit> trail;
    std::vector<size_t> levels;
    size_t head = 0;
    bool in_turn = false;   // variables are decided in turn, those before `passed` aren't open
    unsigned passed = 0;
    Order order;
    Restarts restarts;
    std::vector<Place> learnt, resolved;
    std::vector<Number> stamp;  // by level
    Number stamps = 0, propagations = 0, restarted = 0, reductions = 0, above = 0, deleted = 0, reduce_at = 500, limit = ~0ull;

    explicit Solver(unsigned count)
        : watches(2 * count), value(2 * count), level(count), reason(count), last(count, true), output(count), mark(count), order(count), stamp(count + 1) {}

    unsigned length(Place clause) const { return memory[clause]; }
    unsigned& span(Place clause) { return memory[clause + 1]; }
    unsigned& used(Place clause) { return memory[clause + 2]; }
    Lit* lits(Place clause) { return &memory[clause + HEAD]; }

    void assign(Lit lit, Place why) {
        value[lit] = 1;
        value[lit ^ 1] = -1;
        level[lit >> 1] = levels.size();
        reason[lit >> 1] = why;
        trail.push_back(lit);
    }

    void back_to(size_t count) {
        if (levels.size() <= count) return;
        while (trail.size() > levels[count]) {
            Lit lit = trail.back();
            trail.pop_back();
            value[lit] = value[lit ^ 1] = 0;
            last[lit >> 1] = !(lit & 1);
            passed = std::min(passed, lit >> 1);
            order.insert(lit >> 1);
        }
        levels.resize(count);
        head = trail.size();
    }

    void watch(Place clause) {
        Lit* of = lits(clause);
        unsigned word = 2 * clause + (length(clause) == 2);
        watches[of[0]].push_back({word, of[1]});
        watches[of[1]].push_back({word, of[0]});
    }

    Place add(const std::vector<Lit>& of) {
        Place clause = memory.size();
        memory.insert(memory.end(), {(unsigned)of.size(), 0, 0});
        memory.insert(memory.end(), of.begin(), of.end());
        if (of.size() > 1) watch(clause);
        return clause;
    }

    // Gives a clause whose second watch is false another one. Answers whether there is one.
    bool moves(Place clause, Lit* of) {
        for (unsigned at = 2; at < length(clause); at++) {
            if (value[of[at]] < 0) continue;
            std::swap(of[1], of[at]);
            watches[of[1]].push_back({2 * clause, of[0]});
            return true;
        }
        return false;
    }

    // Visits the clauses that watch a literal that became false. Answers a false clause, or none.
    Place visit(Lit lit) {
        auto& list = watches[lit];
        size_t kept = 0, at = 0;
        Place conflict = NONE;
        while (at < list.size() && conflict == NONE) {
            Watch watch = list[at++];
            if (value[watch.blocking] > 0) { list[kept++] = watch; continue; }
            Place clause = watch.clause / 2;
            Lit other = watch.blocking;
            if (!(watch.clause & 1)) {
                Lit* of = lits(clause);
                if (of[0] == lit) std::swap(of[0], of[1]);
                other = of[0];
                if (value[other] <= 0 && moves(clause, of)) continue;
            }
            list[kept++] = {watch.clause, other};
            if (value[other] > 0) continue;
            if (value[other] < 0) conflict = clause;
            else assign(other, clause);
        }
        while (at < list.size()) list[kept++] = list[at++];
        list.resize(kept);
        return conflict;
    }

    Place propagate() {
        while (head < trail.size()) {
            propagations++;
            if (Place conflict = visit(trail[head++] ^ 1)) return conflict;
        }
        return NONE;
    }

    // How many levels other than 0 the literals have.
    unsigned spanned(const Lit* of, unsigned count) {
        unsigned spans = 0;
        stamps++;
        for (unsigned at = 0; at < count; at++) {
            unsigned there = level[of[at] >> 1];
            if (there > 0 && stamp[there] != stamps) { stamp[there] = stamps; spans++; }
        }
        return spans;
    }

    // A learnt clause was of use.
    void use(Place clause) {
        if (!span(clause) || length(clause) == 2) return;
        if (span(clause) > 2) span(clause) = std::min(span(clause), spanned(lits(clause), length(clause)));
        used(clause) = span(clause) <= 6 ? 2 : 1;
    }

    bool is_implied(Lit lit) {
        Place why = reason[lit >> 1];
        if (why == NONE) return false;
        return std::all_of(lits(why), lits(why) + length(why), [&](Lit other) {
            unsigned variable = other >> 1;
            return variable == lit >> 1 || level[variable] == 0 || (mark[variable] == 1 && level[variable] < levels.size());
        });
    }

    // The learnt clause of a conflict: first the negation of the first unique implication point.
    std::vector<Lit> analyse(Place conflict) {
        std::vector<Lit> clause{0};
        std::vector<unsigned> met;
        size_t at = trail.size();
        int open = 0;
        Lit point;
        resolved.clear();
        for (Place why = conflict;; why = reason[point >> 1]) {
            resolved.push_back(why);
            for (unsigned i = 0; i < length(why); i++) {
                Lit lit = lits(why)[i];
                unsigned variable = lit >> 1;
                if (mark[variable] || level[variable] == 0) continue;
                mark[variable] = 1;
                met.push_back(variable);
                if (level[variable] == levels.size()) open++;
                else clause.push_back(lit);
            }
            while (!mark[trail[--at] >> 1]) {}
            point = trail[at];
            if (--open == 0) break;
            mark[point >> 1] = 2;
        }
        clause[0] = point ^ 1;
        clause.erase(std::remove_if(clause.begin() + 1, clause.end(), [&](Lit lit) { return is_implied(lit); }), clause.end());
        for (Place one : resolved) use(one);
        for (unsigned variable : met) {
            mark[variable] = 0;
            order.bump(variable);
        }
        order.decay();
        return clause;
    }

    void learn(std::vector<Lit> clause) {
        unsigned spans = spanned(clause.data(), clause.size());
        size_t back = 0;
        if (clause.size() > 1) {
            auto highest = std::max_element(clause.begin() + 1, clause.end(), [&](Lit a, Lit b) { return level[a >> 1] < level[b >> 1]; });
            std::swap(clause[1], *highest);
            back = level[clause[1] >> 1];
        }
        restarts.note(spans);
        size_t trues = trail.size();
        back_to(back);
        restarts.weigh(trues - trail.size());
        Place why = clause.size() > 1 ? add(clause) : NONE;
        if (clause.size() > 2) {
            learnt.push_back(why);
            span(why) = spans;
            used(why) = spans <= 6 ? 2 : 1;
        }
        assign(clause[0], why);
    }

    // Of the learnt clauses that span more than two levels, are no reasons and weren't lately used, three of four go: those that
    // span the most levels, among equals the longest, and then the oldest.
    void reduce() {
        reductions++;
        if (!levels.empty()) above++;
        reduce_at = restarts.conflicts + 500 + 100 * reductions;
        std::vector<bool> is_reason(memory.size());
        for (Lit lit : trail) is_reason[reason[lit >> 1]] = true;
        std::vector<Place> free;
        for (Place clause : learnt) {
            if (span(clause) <= 2 || is_reason[clause]) continue;
            if (used(clause)) used(clause)--;
            else free.push_back(clause);
        }
        std::stable_sort(free.begin(), free.end(), [&](Place a, Place b) {
            return span(a) != span(b) ? span(a) > span(b) : length(a) > length(b);
        });
        free.resize(free.size() * 75 / 100);
        for (Place clause : free) { used(clause) = DEAD; waste += HEAD + length(clause); }
        deleted += free.size();
        learnt.erase(std::remove_if(learnt.begin(), learnt.end(), [&](Place clause) { return used(clause) == DEAD; }), learnt.end());
        for (auto& list : watches)
            list.erase(std::remove_if(list.begin(), list.end(), [&](Watch watch) { return used(watch.clause / 2) == DEAD; }), list.end());
        if (waste > memory.size() / 4) compact();
    }

    // Moves what is left together. A clause's new place stands where its span was until all know it.
    void compact() {
        std::vector<unsigned> moved{0};
        for (Place clause = 1; clause < memory.size(); clause += HEAD + length(clause)) {
            if (used(clause) == DEAD) continue;
            Place place = moved.size();
            moved.insert(moved.end(), &memory[clause], &memory[clause] + HEAD + length(clause));
            span(clause) = place;
        }
        for (auto& list : watches) for (Watch& watch : list) watch.clause = 2 * span(watch.clause / 2) + (watch.clause & 1);
        for (Place& clause : learnt) clause = span(clause);
        for (Lit lit : trail) if (reason[lit >> 1]) reason[lit >> 1] = span(reason[lit >> 1]);
        memory = std::move(moved);
        waste = 0;
    }

    // Decides a variable, with its last value. Answers whether it was open.
    bool take(unsigned variable) {
        if (value[2 * variable]) return false;
        levels.push_back(trail.size());
        assign(2 * variable + !last[variable], NONE);
        return true;
    }

    bool decide() {
        while (in_turn && passed < last.size()) if (take(passed++)) return true;
        while (!order.heap.empty()) if (take(order.pop())) return true;
        return false;
    }

    // Variables are decided in turn, from the least, or by the order. Answers whether that is new.
    bool turns() {
        if (restarts.in_turn() == in_turn) return false;
        in_turn = !in_turn;
        passed = 0;
        return true;
    }

    // Restarts and reduces, if that is due. The way of deciding changes only then.
    void pause() {
        bool full = restarts.conflicts >= reduce_at, due = restarts.due(trail.size());
        if ((full || due) && (turns() || due)) {
            restarted++;
            restarts.last = restarts.conflicts;
            back_to(0);
        }
        if (full) reduce();
    }

    // Descends once. Where that comes to a conflict above level 0, the answer is 0: it is taken back, and nothing is learnt.
    int attempt() {
        while (!propagate()) if (!decide()) return 10;
        if (levels.empty()) return 20;
        back_to(0);
        return 0;
    }

    void aim(bool inputs, bool outputs) {
        for (size_t variable = 0; variable < last.size(); variable++) last[variable] = output[variable] ? outputs : inputs;
    }

    // 10 where there is a model, 20 where there is none, 0 where there were too many conflicts.
    int solve() {
        if (int status = attempt()) return status;
        aim(true, false);
        if (int status = attempt()) return status;
        aim(false, false);
        if (int status = attempt()) return status;
        aim(true, true);
        for (;;) {
            if (Place conflict = propagate()) {
                if (levels.empty()) return 20;
                if (restarts.conflicts == limit) return 0;
                learn(analyse(conflict));
                continue;
            }
            pause();
            if (!decide()) return 10;
        }
    }

    // Whether the clause leaves a model possible.
    bool give(std::vector<Lit> of) {
        if (of.size() > 1) output[*std::max_element(of.begin(), of.end()) >> 1] = true;
        std::sort(of.begin(), of.end());
        of.erase(std::unique(of.begin(), of.end()), of.end());
        for (size_t at = 1; at < of.size(); at++) if (of[at] == (of[at - 1] ^ 1)) return true;
        if (of.size() > 1) add(of);
        else if (of.empty() || value[of[0]] < 0) return false;
        else if (!value[of[0]]) assign(of[0], NONE);
        return true;
    }
};

int main(int count, char** words) {
    FILE* in = std::fopen(words[count - 1], "r");
    unsigned variables;
    long clauses, number;
    if (!in || std::fscanf(in, "p cnf %u %ld", &variables, &clauses) != 2) return 2;
    Solver solver(variables);
    if (count > 2) solver.limit = std::atoll(words[1]);
    std::vector<Lit> of;
    bool possible = true;
    while (std::fscanf(in, "%ld", &number) == 1) {
        if (number) of.push_back(2 * (std::labs(number) - 1) + (number < 0));
        else { possible = solver.give(of) && possible; of.clear(); }
    }
    int status = possible ? solver.solve() : 20;
    std::printf("%s\n", status == 10 ? "satisfiable" : status == 20 ? "unsatisfiable" : "spent");
    std::printf("conflicts : %llu\nrestarts : %llu\n", solver.restarts.conflicts, solver.restarted);
    std::printf("reductions : %llu\nabove : %llu\ndeleted : %llu\n", solver.reductions, solver.above, solver.deleted);
    std::printf("propagations : %llu\n", solver.propagations);
    return status;
}
