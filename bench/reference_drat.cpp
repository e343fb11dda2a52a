// A plain forward DRAT checker, to compare with: the same rules, lines and statuses as drat-forward (docs/FORMATS.md,
// docs/RULES.md, docs/REPORT.md), written straight down and not proved. It shares no code with the checker that it is compared
// with.
//
// Propagation is by two watched literals. What follows from the live clauses alone stays true from step to step; where a
// clause is deleted that one of these literals came from, that literal and all after it are found anew.
//
// With --keep-units what follows from the live clauses is also found by passes over all of them, past a clash too, wherever a
// deletion asks for it. That is slow, and takes nothing from the watched literals.
//
//     c++ -O2 -std=c++17 -o reference_drat reference_drat.cpp
//     ./reference_drat [--binary] [--trace] [--strict] [--keep-units] FORMULA [PROOF]

#include "reference.hpp"

#include <unordered_map>
#include <utility>

namespace {

using namespace reference;

// ---- The steps of a proof

struct Step {
    bool adds = true;
    std::vector<int> literals;

    void begin(bool is_addition) {
        adds = is_addition;
        literals.clear();
    }
};

struct TextProof {
    Scanner scanner;
    Fault fault;

    explicit TextProof(int file) : scanner(file) {}

    Read stop(Fault f) { return fault = f, WRONG; }

    Read next(Step &step) {
        bool is_inside = false;
        step.begin(true);
        for (;; is_inside = true) {
            Token t;
            do t = scanner.next();
            while (t.kind == Token::LINE_END);
            if (t.kind == Token::FAILED) return stop(Fault{});
            if (t.kind == Token::END) return is_inside ? stop(at("unterminated step", t.place)) : DONE;
            if (t.kind == Token::D && !is_inside) {
                step.begin(false);
                continue;
            }
            if (t.kind != Token::NUMBER) return stop(at("bad token", t.place));
            if (t.size > MOST_VARIABLE) return stop(at("literal too large", t.place));
            if (t.size == 0) return ITEM;
            step.literals.push_back(literal_of(t));
        }
    }
};

struct BinaryProof {
    Source source;
    u64 place = 1; // the number of the next byte
    Fault fault;

    explicit BinaryProof(int file) : source(file) {}

    Read stop(const char *kind, u64 byte) { return fault = Fault{kind, "byte " + std::to_string(byte)}, WRONG; }

    Read take(unsigned char &byte) {
        int what = source.peek(byte);
        if (what == Source::FAILED) return fault = Fault{}, WRONG;
        if (what == Source::END) return DONE;
        source.bump();
        place = one_more(place);
        return ITEM;
    }

    // A byte inside a step.
    bool take_inside(unsigned char &byte) {
        Read what = take(byte);
        if (what == DONE) stop("unterminated step", place);
        return what == ITEM;
    }

    // The number that begins with a byte that was taken.
    bool number(unsigned char byte, u64 &value) {
        u64 start = place - 1;
        value = byte & 127;
        for (u64 shift = 7; byte >= 128; shift += 7) {
            if (!take_inside(byte)) return false;
            u64 group = byte & 127;
            if (shift < 63) value |= group << shift;
            else if (group) value = MOST;
        }
        if (byte == 0 || value == 1) return stop("bad number", start), false;
        if (value > 2 * MOST_VARIABLE + 1) return stop("literal too large", start), false;
        return true;
    }

    Read next(Step &step) {
        unsigned char byte;
        Read what = take(byte);
        if (what != ITEM) return what;
        if (byte != 'a' && byte != 'd') return stop("bad tag", place - 1);
        step.begin(byte == 'a');
        for (u64 value; take_inside(byte) && (byte == 0 || number(byte, value));) {
            if (byte == 0) return ITEM;
            step.literals.push_back(value % 2 ? -int(value / 2) : int(value / 2));
        }
        return WRONG;
    }
};

// ---- The live clauses

const u32 NONE = 0, UNIT = UINT32_MAX; // no numbers of clauses

template <class Literals> std::vector<int> sorted(const Literals &literals) {
    std::vector<int> copy(literals.begin(), literals.end());
    std::sort(copy.begin(), copy.end());
    return copy;
}

// Clauses by number, also found by their sets of literals. A free number has a clause without literals.
struct Store {
    std::vector<Clause> clauses{1};
    std::vector<u32> unused;
    std::unordered_multimap<u64, u32> by_set;

    // The same for each order of the literals.
    template <class Literals> static u64 hash_of(const Literals &literals) {
        u64 sum = 0;
        for (int l : literals) {
            u64 n = u64(index_of(l)) * 0x9e3779b97f4a7c15;
            sum += (n ^ (n >> 29)) * 0xbf58476d1ce4e5b9;
        }
        return sum;
    }

    u32 add(Clause c) {
        if (unused.empty()) {
            unused.push_back(u32(clauses.size()));
            clauses.emplace_back();
        }
        u32 k = unused.back();
        unused.pop_back();
        by_set.emplace(hash_of(c), k);
        clauses[k] = std::move(c);
        return k;
    }

    // The number of a clause with just these literals, which are different ones, or none.
    u32 find(const std::vector<int> &literals) const {
        auto [from, to] = by_set.equal_range(hash_of(literals));
        for (; from != to; ++from) {
            const Clause &c = clauses[from->second];
            if (c.size == literals.size() && sorted(c) == sorted(literals)) return from->second;
        }
        return NONE;
    }

    Clause remove(u32 k) {
        auto it = by_set.equal_range(hash_of(clauses[k])).first;
        while (it->second != k) ++it;
        by_set.erase(it);
        unused.push_back(k);
        return std::exchange(clauses[k], Clause());
    }
};

// ---- Propagation

// The watched literals of a clause are its first two. Where nothing is assumed, `trail` has what follows from the clauses,
// each literal with the clause that it came from, unless they clash.
struct Propagation {
    Store store;
    std::vector<unsigned char> truth;       // by literal
    std::vector<u32> reasons;               // by literal: what made it true, where it is
    std::vector<u32> units;                 // by literal: how many live clauses have it alone
    std::vector<std::vector<u32>> watching; // by literal
    std::vector<int> trail;                 // the true literals
    size_t head = 0;                        // how many of them were looked at
    bool has_clash = false;                 // of the live clauses, where nothing is assumed

    void make_room(size_t literals) {
        truth.resize(literals);
        reasons.resize(literals);
        units.resize(literals);
        watching.resize(literals);
    }

    bool is_true(int l) const { return truth[index_of(l)]; }
    bool is_false(int l) const { return is_true(-l); }

    // Makes a literal true. Whether that is a clash.
    bool assume(int l, u32 reason) {
        if (is_true(l) || is_false(l)) return is_false(l);
        truth[index_of(l)] = 1;
        reasons[index_of(l)] = reason;
        trail.push_back(l);
        return false;
    }

    void undo_to(size_t n) {
        for (; trail.size() > n; trail.pop_back()) truth[index_of(trail.back())] = 0;
        head = n;
    }

    // Whether all that is true leads to a clash.
    bool propagate() {
        while (head < trail.size())
            if (visit(-trail[head++])) return true;
        return false;
    }

    // Looks at the clauses that watch a literal which is false now. Whether one of them clashes.
    bool visit(int l) {
        std::vector<u32> &list = watching[index_of(l)];
        bool clashes = false;
        size_t kept = 0, i = 0;
        for (; i < list.size() && !clashes; ++i) {
            u32 k = list[i];
            if (moves_on(k, l)) continue;
            list[kept++] = k;
            clashes = assume(store.clauses[k].literals[0], k);
        }
        list.erase(list.begin() + long(kept), list.begin() + long(i));
        return clashes;
    }

    // Whether a clause watches another literal in place of a false one. Else that is its second one.
    bool moves_on(u32 k, int l) {
        const Clause &c = store.clauses[k];
        int *literals = c.begin();
        if (literals[0] == l) std::swap(literals[0], literals[1]);
        if (is_true(literals[0])) return false;
        int *other = std::find_if(literals + 2, c.end(), [&](int it) { return !is_false(it); });
        if (other == c.end()) return false;
        std::swap(literals[1], *other);
        watching[index_of(literals[1])].push_back(k);
        return true;
    }

    // Adds a clause that is not empty.
    void add(Clause added) {
        u32 k = store.add(std::move(added));
        const Clause &c = store.clauses[k];
        std::partition(c.begin(), c.end(), [&](int l) { return !is_false(l); });
        int first = c.literals[0];
        if (c.size == 1) ++units[index_of(first)];
        else
            for (int i : {0, 1}) watching[index_of(c.literals[i])].push_back(k);
        if (has_clash || (c.size > 1 && !is_false(c.literals[1]))) return;
        has_clash = assume(first, c.size == 1 ? UNIT : k) || propagate();
    }

    void remove(u32 k) {
        Clause c = store.remove(k);
        if (c.size == 1) --units[index_of(c.literals[0])];
        else
            for (int i : {0, 1}) unwatch(c.literals[i], k);
        if (has_clash) start_over();
        else withdraw(c, c.size == 1 ? UNIT : k);
    }

    void unwatch(int l, u32 k) {
        std::vector<u32> &list = watching[index_of(l)];
        *std::find(list.begin(), list.end(), k) = list.back();
        list.pop_back();
    }

    // What came from a clause that is gone is found anew, unless it is a clause by itself.
    void withdraw(const Clause &c, u32 reason) {
        for (int l : c) {
            if (!is_true(l) || reasons[index_of(l)] != reason) continue;
            if (units[index_of(l)]) reasons[index_of(l)] = UNIT;
            else find_anew(size_t(std::find(trail.begin(), trail.end(), l) - trail.begin()));
            return;
        }
    }

    // Undoes the trail from a place on. All of it is looked at again, since a clause may be unit that had a true literal.
    void find_anew(size_t place) {
        std::vector<int> undone(trail.begin() + long(place), trail.end());
        undo_to(place);
        for (int l : undone)
            if (units[index_of(l)]) assume(l, UNIT);
        head = 0;
        propagate();
    }

    // After a clash, what is true is found from nothing.
    void start_over() {
        undo_to(0);
        has_clash = false;
        for (int v = 1; index_of(-v) < units.size(); ++v)
            for (int l : {v, -v})
                if (units[index_of(l)] && assume(l, UNIT)) has_clash = true;
        has_clash = has_clash || propagate();
    }

    // Whether the complements of the literals but one clash with what is true.
    bool refutes(const int *from, const int *to, int left_out) {
        for (; from != to; ++from)
            if (*from != left_out && assume(-*from, NONE)) return true;
        return propagate();
    }
};

// ---- What follows from the live clauses, by passes over all of them

using Marks = std::vector<unsigned char>; // by literal

// Whether a literal of a clause follows from the marked ones: the complements of all others are marked.
bool follows(int l, const Clause &c, const Marks &marks) {
    return std::all_of(c.begin(), c.end(), [&](int other) { return other == l || marks[index_of(-other)]; });
}

// The least set in which each literal is that follows from it by a clause. Past a clash it has both signs of a variable.
Marks least_set(const Store &store, size_t literals) {
    Marks marks(literals);
    for (bool has_grown = true; has_grown;) {
        has_grown = false;
        for (const Clause &c : store.clauses)
            for (int l : c)
                if (!marks[index_of(l)] && follows(l, c, marks)) marks[index_of(l)] = has_grown = true;
    }
    return marks;
}

// ---- The rules

struct Session {
    bool strict, keeps_units;
    Propagation clauses;
    std::vector<int> numbers; // by variable: variables are numbered as they come
    int variables = 0;        // how many have come
    Marks marks;
    std::vector<u64> copies; // by literal: how many live clauses hold it
    Marks forced;            // what follows from the live clauses, as of when it was last asked for
    bool is_current = false; // whether that is so still
    Sum sum;
    bool has_empty = false;
    std::string cause; // of the last refusal

    Session(bool strict, bool keeps_units) : strict(strict), keeps_units(keeps_units) {}

    int numbered(int l) {
        size_t v = size_t(l < 0 ? -l : l);
        if (numbers.size() <= v) numbers.resize(v + 1);
        if (!numbers[v]) {
            numbers[v] = ++variables;
            size_t room = index_of(-variables) + 1;
            marks.resize(room);
            copies.resize(room);
            clauses.make_room(room);
        }
        return l < 0 ? -numbers[v] : numbers[v];
    }

    // The clause of some literals, its first one first.
    std::vector<int> clause_of(const std::vector<int> &written) {
        std::vector<int> literals;
        for (int l : written) literals.push_back(numbered(l));
        return different(literals, marks);
    }

    void input(const std::vector<int> &written) { add(clause_of(written)); }

    void add(const std::vector<int> &literals) {
        is_current = false;
        for (int l : literals) ++copies[index_of(l)];
        sum.add(u32(literals.size()));
        if (literals.empty()) has_empty = true;
        else clauses.add(Clause(literals));
    }

    // Whether a live clause has a literal that follows, and the complements of all its others follow.
    bool is_kept(const Clause &c) {
        if (!is_current) forced = least_set(clauses.store, marks.size());
        is_current = true;
        return std::any_of(c.begin(), c.end(), [&](int l) { return forced[index_of(l)] && follows(l, c, forced); });
    }

    const char *remove(const std::vector<int> &literals) {
        u32 k = clauses.store.find(literals);
        if (k == NONE && strict) return cause = "clause is not alive", nullptr;
        if (k == NONE || (keeps_units && is_kept(clauses.store.clauses[k]))) return "ignored";
        is_current = false;
        for (int l : literals) --copies[index_of(l)];
        sum.take(u32(literals.size()));
        clauses.remove(k);
        return "delete";
    }

    // Whether each candidate clashes, where the complements of the clause are true.
    bool all_clash(int opposite) {
        size_t start = clauses.trail.size();
        u64 left = copies[index_of(opposite)];
        for (u32 k = 1; left; ++k) {
            const Clause &c = clauses.store.clauses[k];
            if (!c.has(opposite)) continue;
            bool clashes = clauses.refutes(c.begin(), c.end(), opposite);
            clauses.undo_to(start);
            if (!clashes) return false;
            --left;
        }
        return true;
    }

    // The word of an accepted addition, or none.
    const char *judge(const Step &step, const std::vector<int> &literals) {
        if (clauses.has_clash) return "add rup";
        size_t start = clauses.trail.size();
        const int *from = literals.data();
        bool is_rup = clauses.refutes(from, from + literals.size(), 0);
        bool is_rat = !is_rup && !literals.empty() && all_clash(-literals[0]);
        clauses.undo_to(start);
        if (is_rup || is_rat) return is_rup ? "add rup" : "add rat";
        cause = literals.empty() ? "not RUP" : "neither RUP nor RAT on " + std::to_string(step.literals[0]);
        return nullptr;
    }

    const char *take(const Step &step) {
        std::vector<int> literals = clause_of(step.literals);
        if (!step.adds) return remove(literals);
        const char *word = judge(step, literals);
        if (word) add(literals);
        return word;
    }
};

template <class Proof> Status check_drat(const std::vector<Flag> &flags, int formula_file, int proof_file) {
    Formula formula(formula_file);
    Proof proof(proof_file);
    Session session(flags[2].is_given, flags[3].is_given);
    return check(flags[1].is_given, formula, proof, session, Step());
}

} // namespace

int main(int, char **argv) {
    std::vector<Flag> flags{{"--binary"}, {"--trace"}, {"--strict"}, {"--keep-units"}};
    const char *usage = "[--binary] [--trace] [--strict] [--keep-units] FORMULA [PROOF]";
    return run("reference_drat", usage, argv + 1, flags, [&](int formula, int proof) {
        return flags[0].is_given ? check_drat<BinaryProof>(flags, formula, proof) : check_drat<TextProof>(flags, formula, proof);
    });
}
