// A plain LRAT checker, to compare with: the same rules, lines and statuses as lrat-check (docs/FORMATS.md, docs/RULES.md,
// docs/REPORT.md), written straight down and not proved. It shares no code with the checker that it is compared with.
//
// Clauses stand in a hash table by identifier, true literals in a table by literal. Both tables grow with what is met.
//
//     c++ -O2 -std=c++17 -o reference reference.cpp
//     ./reference [--trace] FORMULA [PROOF]

#include "reference.hpp"

#include <unordered_map>
#include <unordered_set>

namespace {

using namespace reference;

const u64 MOST_ID = 9223372036854775807;

// ---- The steps of a proof

struct Step {
    bool adds;
    u64 id;
    std::vector<int> literals;
    std::vector<int64_t> hints;
};

struct Proof {
    Scanner scanner;
    Fault fault;

    explicit Proof(int file) : scanner(file) {}

    int stop(Fault f) { return fault = f, WRONG; }

    int next(Step &step) {
        enum { IDENTIFIER, AFTER_IDENTIFIER, LITERALS, HINTS, DELETION } part = IDENTIFIER;
        step.adds = true;
        step.literals.clear();
        step.hints.clear();
        for (;;) {
            Token t = scanner.next();
            if (t.kind == Token::LINE_END) continue;
            if (t.kind == Token::FAILED) return stop(Fault{});
            if (t.kind == Token::END) return part == IDENTIFIER ? int(DONE) : stop(at("unterminated step", t.place));
            if (t.kind == Token::D && part == AFTER_IDENTIFIER) {
                step.adds = false;
                part = DELETION;
                continue;
            }
            if (t.kind != Token::NUMBER) return stop(at("bad token", t.place));
            switch (part) {
            case IDENTIFIER:
                if (t.is_negative || t.size == 0) return stop(at("bad token", t.place));
                if (t.size > MOST_ID) return stop(at("identifier too large", t.place));
                step.id = t.size;
                part = AFTER_IDENTIFIER;
                break;
            case AFTER_IDENTIFIER:
            case LITERALS:
                if (t.size > MOST_VARIABLE) return stop(at("literal too large", t.place));
                if (t.size == 0) part = HINTS;
                else step.literals.push_back(literal_of(t)), part = LITERALS;
                break;
            case DELETION:
                if (t.is_negative) return stop(at("bad token", t.place));
                // fallthrough
            case HINTS:
                if (t.size > MOST_ID) return stop(at("identifier too large", t.place));
                if (t.size == 0) return ITEM;
                step.hints.push_back(t.is_negative ? -int64_t(t.size) : int64_t(t.size));
                break;
            }
        }
    }
};

// ---- The rules

struct Session {
    std::unordered_map<u64, Clause> live;
    std::vector<unsigned char> truth; // by literal
    std::vector<u64> copies;          // by literal: how many live clauses hold it
    std::vector<int> trail;           // the true literals
    u64 top = 0;
    Sum sum;
    bool has_empty = false;
    bool conflict = false; // a literal and its complement are true

    void reach(int l) {
        size_t room = std::max(index_of(l), index_of(-l)) + 1;
        if (truth.size() < room) {
            truth.resize(room);
            copies.resize(room);
        }
    }

    bool is_true(int l) const { return truth[index_of(l)]; }

    void make_true(int l) {
        if (is_true(l)) return;
        if (is_true(-l)) conflict = true;
        truth[index_of(l)] = 1;
        trail.push_back(l);
    }

    void undo_to(size_t n) {
        while (trail.size() > n) {
            truth[index_of(trail.back())] = 0;
            trail.pop_back();
        }
        conflict = false;
    }

    void input(const std::vector<int> &written) { add(top + 1, written); }

    void add(u64 id, const std::vector<int> &written) {
        for (int l : written) reach(l);
        Clause c(different(written, truth)); // nothing is true between two steps
        for (int l : c) ++copies[index_of(l)];
        sum.add(c.size);
        has_empty = has_empty || c.size == 0;
        live.emplace(id, std::move(c));
        top = id;
    }

    bool remove(u64 id) {
        auto it = live.find(id);
        if (it == live.end()) return false;
        for (int l : it->second) --copies[index_of(l)];
        sum.take(it->second.size);
        live.erase(it);
        return true;
    }

    std::string cause; // of the last refusal

    std::string with_id(const char *before, u64 id, const char *after) { return before + std::to_string(id) + after; }

    enum End { CONFLICT, OPEN, REFUSED };

    // Walks over the hints from `i` to the next negative one.
    End walk(const std::vector<int64_t> &hints, size_t i) {
        for (; i < hints.size() && hints[i] > 0; ++i) {
            if (conflict) return CONFLICT;
            auto it = live.find(u64(hints[i]));
            if (it == live.end()) return cause = with_id("unknown id ", u64(hints[i]), ""), REFUSED;
            int left = 0;
            bool has_more = false;
            for (int l : it->second) {
                if (is_true(-l)) continue;
                has_more = left != 0;
                left = l;
                if (has_more) break;
            }
            if (has_more) return cause = with_id("hint ", u64(hints[i]), " is not unit"), REFUSED;
            if (left == 0) return CONFLICT;
            make_true(left);
        }
        return conflict ? CONFLICT : OPEN;
    }

    // Makes false what is left of a candidate.
    void assume_rest(const Clause &c, int pivot) {
        for (int l : c)
            if (l != -pivot) make_true(-l);
    }

    // The word of an accepted addition, or none.
    const char *judge(const Step &step) {
        if (step.id <= top) return cause = "identifier is not above all earlier ones", nullptr;
        for (int l : step.literals) reach(l), make_true(-l);
        End end = walk(step.hints, 0);
        if (end == CONFLICT) return "add rup";
        if (end == REFUSED) return nullptr;
        if (step.literals.empty()) return cause = "no conflict", nullptr;
        int pivot = step.literals[0];
        size_t start = trail.size();
        std::unordered_set<u64> named;
        for (size_t i = 0; i < step.hints.size(); ++i) {
            if (step.hints[i] > 0) continue;
            u64 k = u64(-step.hints[i]);
            auto it = live.find(k);
            if (it == live.end()) return cause = with_id("unknown id ", k, ""), nullptr;
            if (!it->second.has(-pivot)) return cause = with_id("clause ", k, " does not hold the complement"), nullptr;
            if (!named.insert(k).second) return cause = with_id("clause ", k, " is named twice"), nullptr;
            assume_rest(it->second, pivot);
            end = walk(step.hints, i + 1);
            undo_to(start);
            if (end == REFUSED) return nullptr;
            if (end == OPEN) return cause = with_id("group ", k, " has no conflict"), nullptr;
        }
        // Each named clause holds the complement, so where the numbers agree no other one does.
        if (copies[index_of(-pivot)] != named.size()) {
            u64 lowest = 0;
            for (auto &[k, c] : live) {
                if ((lowest && k > lowest) || named.count(k) || !c.has(-pivot)) continue;
                assume_rest(c, pivot);
                if (!conflict) lowest = k;
                undo_to(start);
            }
            if (lowest) return cause = with_id("clause ", lowest, " holds the complement and is not named"), nullptr;
        }
        return "add rat";
    }

    const char *take(const Step &step) {
        if (!step.adds) {
            for (int64_t k : step.hints)
                if (!remove(u64(k))) return cause = with_id("unknown id ", u64(k), ""), nullptr;
            return "delete";
        }
        const char *word = judge(step);
        undo_to(0);
        if (word) add(step.id, step.literals);
        return word;
    }
};

} // namespace

int main(int, char **argv) {
    std::vector<Flag> flags{{"--trace"}};
    return run("reference", "[--trace] FORMULA [PROOF]", argv + 1, flags, [&](int formula_file, int proof_file) {
        Formula formula(formula_file);
        Proof proof(proof_file);
        Session session;
        return check(flags[0].is_given, formula, proof, session, Step());
    });
}
