// Finds hints for what a SAT solver learned, as bin/hints does, and quickly: bench/certify.sh measures large
// refutations by it where the solver writes no LRAT itself.
//
//     hints FORMULA PROOF > REFUTATION
//
// FORMULA is a DIMACS file, PROOF the clauses that the solver learned and dropped (DRAT as text, without RAT steps).
// Each learned clause gets the hints that unit propagation by two watched literals finds. What the last clause doesn't
// need is kept, as a solver keeps it. Status 1: a clause doesn't follow, or the clause without literals isn't reached.
// It is no part of what is proved: `certify` checks what it writes.
#include <algorithm>
#include <cstdint>
#include <cstdio>
#include <cstdlib>
#include <string>
#include <unordered_map>
#include <vector>

namespace {

constexpr int none = -1;

struct Clause {
    size_t start;  // of its literals in `literals`
    int length;
    long number;
    bool is_there;
};

std::vector<int> literals;
std::vector<Clause> clauses;
std::vector<std::vector<int>> watches;  // of a literal: the clauses that watch it
std::vector<signed char> values;        // of a variable: 1, -1, or 0 where it is open
std::vector<int> reasons;               // of a variable: the clause that it follows by
std::vector<bool> is_needed;            // of a variable: it is of a literal that hints have to make false
std::vector<int> trail;                 // true literals in order
size_t looked = 0;                      // that many of them have been propagated
size_t settled = 0;                     // that many of them have a unit clause of their own
long next_number = 1;
bool is_refuted = false;
std::unordered_multimap<uint64_t, int> by_hash;

size_t place(int literal) { return literal > 0 ? 2 * size_t(literal) : 2 * size_t(-literal) + 1; }

int value(int literal) { return literal > 0 ? values[literal] : -values[-literal]; }

int* of(int clause) { return &literals[clauses[clause].start]; }

[[noreturn]] void fail(const std::string& message) {
    fprintf(stderr, "hints: %s\n", message.c_str());
    exit(1);
}

std::string read(const char* path) {
    FILE* file = fopen(path, "rb");
    if (!file) fail(std::string(path) + " can't be read");
    std::string text;
    std::vector<char> piece(1 << 20);
    while (size_t count = fread(piece.data(), 1, piece.size(), file)) text.append(piece.data(), count);
    fclose(file);
    return text;
}

uint64_t hash(std::vector<int> clause) {
    std::sort(clause.begin(), clause.end());
    uint64_t sum = 14695981039346656037u;
    for (int literal : clause) {
        sum = (sum ^ uint32_t(literal)) * 1099511628211u;
        sum ^= sum >> 29;
    }
    return sum;
}

int add(const std::vector<int>& clause, long number) {
    clauses.push_back({literals.size(), int(clause.size()), number, true});
    literals.insert(literals.end(), clause.begin(), clause.end());
    return int(clauses.size()) - 1;
}

void write(long number, const std::vector<int>& clause, const std::vector<long>& hints) {
    printf("%ld ", number);
    for (int literal : clause) printf("%d ", literal);
    printf("0 ");
    for (long hint : hints) printf("%ld ", hint);
    printf("0\n");
}

void assume(int literal, int reason) {
    values[std::abs(literal)] = literal > 0 ? 1 : -1;
    reasons[std::abs(literal)] = reason;
    trail.push_back(literal);
}

// Propagates to the end; returns a clause whose literals are all false, or none.
int propagate() {
    while (looked < trail.size()) {
        int literal = -trail[looked++];
        std::vector<int>& watching = watches[place(literal)];
        size_t kept = 0;
        for (size_t k = 0; k < watching.size(); k++) {
            int clause = watching[k];
            if (!clauses[clause].is_there) continue;
            int* lits = of(clause);
            if (lits[0] == literal) std::swap(lits[0], lits[1]);
            int other = 2;
            while (value(lits[0]) <= 0 && other < clauses[clause].length && value(lits[other]) < 0) other++;
            if (value(lits[0]) <= 0 && other < clauses[clause].length) {
                std::swap(lits[1], lits[other]);
                watches[place(lits[1])].push_back(clause);
                continue;
            }
            watching[kept++] = clause;
            if (value(lits[0]) > 0) continue;
            if (value(lits[0]) == 0) {
                assume(lits[0], clause);
                continue;
            }
            for (k++; k < watching.size(); k++) watching[kept++] = watching[k];
            watching.resize(kept);
            return clause;
        }
        watching.resize(kept);
    }
    return none;
}

// The unit clauses of the literals of a clause but this one, and the clause.
std::vector<long> unit_hints(int clause, int but) {
    std::vector<long> hints;
    for (int k = 0; k < clauses[clause].length; k++)
        if (of(clause)[k] != but) hints.push_back(clauses[reasons[std::abs(of(clause)[k])]].number);
    hints.push_back(clauses[clause].number);
    return hints;
}

void end_by(int clause) {
    write(next_number++, {}, unit_hints(clause, 0));
    is_refuted = true;
}

// Propagates what is always true. What follows gets unit clauses, so that hints stay short.
void settle() {
    int conflict = propagate();
    for (; settled < trail.size(); settled++) {
        int literal = trail[settled];
        int& reason = reasons[std::abs(literal)];
        if (clauses[reason].length == 1) continue;
        write(next_number, {literal}, unit_hints(reason, literal));
        reason = add({literal}, next_number++);
    }
    if (conflict != none) end_by(conflict);
}

// Watches a new clause. Nothing is assumed.
void watch(int clause) {
    int* lits = of(clause);
    int length = clauses[clause].length;
    std::stable_sort(lits, lits + length, [](int a, int b) { return (value(a) >= 0) > (value(b) >= 0); });
    if (length == 0) {
        is_refuted = true;
        return;
    }
    if (length > 1)
        for (int k = 0; k < 2; k++) watches[place(lits[k])].push_back(clause);
    if (value(lits[0]) < 0) {
        end_by(clause);
    } else if (value(lits[0]) == 0 && (length == 1 || value(lits[1]) < 0)) {
        assume(lits[0], clause);
        settle();
    }
}

void need(int clause, int but) {
    for (int k = 0; k < clauses[clause].length; k++)
        if (of(clause)[k] != but) is_needed[std::abs(of(clause)[k])] = true;
}

// The clauses that lead to this one, whose literals are false but for one, in the order of propagation, and this one.
std::vector<long> hints_of(int last, int but) {
    std::vector<long> hints{clauses[last].number};
    need(last, but);
    for (size_t k = trail.size(); k-- > 0;) {
        int variable = std::abs(trail[k]);
        if (!is_needed[variable]) continue;
        is_needed[variable] = false;
        int reason = reasons[variable];
        if (reason == none) continue;
        hints.push_back(clauses[reason].number);
        if (k >= settled) need(reason, trail[k]);
    }
    std::reverse(hints.begin(), hints.end());
    return hints;
}

// Adds a clause that the solver learned, with its hints.
void learn(const std::vector<int>& clause) {
    size_t count = trail.size();
    int last = none, but = 0;
    for (int literal : clause) {
        if (value(literal) > 0) {
            last = reasons[std::abs(literal)];
            but = literal;
            break;
        }
        if (value(literal) == 0) assume(-literal, none);
    }
    if (last == none && but == 0) last = propagate();
    if (last == none) fail("a clause doesn't follow");
    write(next_number, clause, hints_of(last, but));
    for (; trail.size() > count; trail.pop_back()) values[std::abs(trail.back())] = 0;
    looked = count;
    int added = add(clause, next_number++);
    by_hash.emplace(hash(clause), added);
    watch(added);
}

// Drops a clause, if it is there, and gives its number. Unit clauses stay.
long drop(const std::vector<int>& clause) {
    if (clause.size() < 2) return 0;
    std::vector<int> wanted = clause;
    std::sort(wanted.begin(), wanted.end());
    auto found = by_hash.equal_range(hash(clause));
    for (auto one = found.first; one != found.second; ++one) {
        std::vector<int> lits(of(one->second), of(one->second) + clauses[one->second].length);
        std::sort(lits.begin(), lits.end());
        if (lits != wanted) continue;
        long number = clauses[one->second].number;
        clauses[one->second].is_there = false;
        by_hash.erase(one);
        return number;
    }
    return 0;
}

void read_formula(const char* path) {
    std::string text = read(path);
    std::vector<std::vector<int>> all(1);
    int variables = 0;
    for (char* at = &text[0]; *at;) {
        if (*at == 'c' || *at == 'p') {
            if (*at == 'p') variables = atoi(at + 6);
            while (*at && *at != '\n') at++;
        } else if (*at <= ' ') {
            at++;
        } else if (int literal = int(strtol(at, &at, 10))) {
            all.back().push_back(literal);
        } else {
            all.emplace_back();
        }
    }
    all.pop_back();
    watches.resize(2 * size_t(variables) + 2);
    values.resize(size_t(variables) + 1);
    reasons.resize(size_t(variables) + 1, none);
    is_needed.resize(size_t(variables) + 1);
    next_number = long(all.size()) + 1;
    for (auto& clause : all) {
        std::sort(clause.begin(), clause.end());
        clause.erase(std::unique(clause.begin(), clause.end()), clause.end());
        by_hash.emplace(hash(clause), add(clause, long(clauses.size()) + 1));
    }
    for (int k = 0; k < int(all.size()) && !is_refuted; k++) {
        bool is_always_true = false;
        for (int literal : all[k]) is_always_true |= std::binary_search(all[k].begin(), all[k].end(), -literal);
        if (!is_always_true) watch(k);
    }
}

}  // namespace

int main(int count, char** words) {
    if (count != 3) fail("usage: hints FORMULA PROOF");
    read_formula(words[1]);
    std::string text = read(words[2]);
    std::vector<long> dropped;
    std::vector<int> clause;
    for (char* at = &text[0]; *at && !is_refuted;) {
        if (*at <= ' ') {
            at++;
            continue;
        }
        bool drops = *at == 'd';
        if (drops) at++;
        clause.clear();
        while (int literal = int(strtol(at, &at, 10))) clause.push_back(literal);
        if (drops) {
            if (long number = drop(clause)) dropped.push_back(number);
            continue;
        }
        if (!dropped.empty()) {
            printf("%ld d ", next_number - 1);
            for (long number : dropped) printf("%ld ", number);
            printf("0\n");
            dropped.clear();
        }
        learn(clause);
    }
    if (!is_refuted) fail("the proof ends before the clause without literals");
    return 0;
}
