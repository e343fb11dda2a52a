// Makes inputs whose keys were chosen to collide in a hash table with fixed constants, and beside each one that is like it,
// with keys that were not chosen.
//
//     collisions clauses PROOF ALIKE          DRAT: clauses of eight literals, added and then deleted, of which the sums of the
//                                             mixed literals are one number where the seed is 0. Of the formula 1; -1
//     collisions identifiers FORMULA PROOF ALIKE      LRAT: identifiers of which the pages are far
//     collisions variables FORMULA ALIKE              DIMACS CNF: clauses with far variables
//     collisions model FORMULA OUTPUT FORMULA2 OUTPUT2        the same clauses, with a model
//
// The mixing of literals is that of `mix` (crates/clause_index/specs/Hashes.antt), and the hashing of numbers that of the
// hash maps of Rattle's library, whose constants are fixed.

#include <algorithm>
#include <cstdint>
#include <cstdio>
#include <cstdlib>
#include <string>
#include <vector>

using u32 = std::uint32_t;
using u64 = std::uint64_t;

static std::FILE *open_to_write(const char *name) {
    std::FILE *file = std::fopen(name, "w");
    if (!file) {
        std::perror(name);
        std::exit(1);
    }
    return file;
}

// ---- Clauses with one sum

static u64 mix(u64 literal) {
    u64 x = literal * 11400714819323198485u;
    u64 y = (x ^ (x >> 30)) * 13787848793156543929u;
    return (y ^ (y >> 27)) * 10723151780598845931u;
}

// A sum, and the two entries of the lists below that it is of.
struct Sum {
    u64 value;
    u32 left, right;
};

using Sums = std::vector<Sum>;

static constexpr int BITS = 20;

// The sums of an entry of each list of which the bits from `from` to `to` are 0, where those below are.
static Sums join(const Sums &as, const Sums &bs, int from, int to) {
    const u64 mask = (to == 64 ? 0 : u64(1) << to) - (u64(1) << from);
    std::vector<std::pair<u64, u32>> sorted;
    for (u32 j = 0; j < bs.size(); ++j) sorted.emplace_back(bs[j].value & mask, j);
    std::sort(sorted.begin(), sorted.end());
    Sums sums;
    for (u32 i = 0; i < as.size(); ++i) {
        const u64 wanted = (0 - as[i].value) & mask;
        auto it = std::lower_bound(sorted.begin(), sorted.end(), std::make_pair(wanted, u32(0)));
        for (; it != sorted.end() && it->first == wanted; ++it)
            sums.push_back({as[i].value + bs[it->second].value, i, it->second});
    }
    return sums;
}

// Clauses of a literal from each of eight lists: pairs of which the low bits of the sums are 0, then fours with more of them,
// and last eights with all.
static std::vector<std::vector<u64>> clauses_with_one_sum() {
    Sums lists[8], pairs[4], fours[2];
    for (int k = 0; k < 8; ++k)
        for (u32 i = 0; i < u32(1) << BITS; ++i) {
            const u64 literal = 4 + (u64(k) << BITS) + i;
            lists[k].push_back({mix(literal), u32(literal), 0});
        }
    for (int k = 0; k < 4; ++k) pairs[k] = join(lists[2 * k], lists[2 * k + 1], 0, BITS);
    for (int k = 0; k < 2; ++k) fours[k] = join(pairs[2 * k], pairs[2 * k + 1], BITS, 2 * BITS);
    std::vector<std::vector<u64>> clauses;
    for (const Sum &all : join(fours[0], fours[1], 2 * BITS, 64)) {
        std::vector<u64> clause;
        for (int half = 0; half < 2; ++half) {
            const Sum &four = fours[half][half ? all.right : all.left];
            for (int part = 0; part < 2; ++part) {
                const int k = 2 * half + part;
                const Sum &pair = pairs[k][part ? four.right : four.left];
                clause.push_back(lists[2 * k][pair.left].left);
                clause.push_back(lists[2 * k + 1][pair.right].left);
            }
        }
        clauses.push_back(clause);
    }
    return clauses;
}

static std::string text_of(const std::vector<u64> &clause) {
    std::string text;
    for (u64 literal : clause) text += (literal % 2 ? "-" : "") + std::to_string(literal / 2) + " ";
    return text + "0\n";
}

// Each clause is added, and then the last that is left is deleted, again and again.
static void write_steps(const char *name, const std::vector<std::vector<u64>> &clauses) {
    std::FILE *file = open_to_write(name);
    for (const auto &clause : clauses) std::fputs(text_of(clause).c_str(), file);
    for (auto clause = clauses.rbegin(); clause != clauses.rend(); ++clause) std::fputs(("d " + text_of(*clause)).c_str(), file);
    std::fputs("0\n", file);
    std::fclose(file);
}

static void write_clauses(const char *proof, const char *alike) {
    auto clauses = clauses_with_one_sum();
    write_steps(proof, clauses);
    // each clause gets the last literal of the next one, so that no two sums are the same
    const u64 first = clauses.front().back();
    for (std::size_t i = 0; i < clauses.size(); ++i) clauses[i].back() = i + 1 < clauses.size() ? clauses[i + 1].back() : first;
    write_steps(alike, clauses);
}

// ---- Numbers that lie near each other in a table

static u64 folded_multiply(u64 a, u64 b) {
    const unsigned __int128 product = static_cast<unsigned __int128>(a) * b;
    return static_cast<u64>(product) ^ static_cast<u64>(product >> 64);
}

// The hash of a number of so many bytes, 4 or 8.
static u32 hash_of(u64 number, int bytes) {
    const u64 read = bytes == 4 ? number | number << 32 : number;
    const u64 hash = folded_multiply(0x243f6a8885a308d3 ^ read, 0x9e3779b97f4a7c15 ^ u64(2 * bytes));
    return static_cast<u32>(hash ^ hash >> 32);
}

// One number in a thousand: its search starts at one of the first 64 groups of a table of up to 65536.
static bool is_chosen(u64 number, int bytes) { return (hash_of(number, bytes) & 0xffff) < 64; }

// So many numbers from `from` on, in steps: chosen ones, or as far from each other, each the first of a thousand.
static std::vector<u64> numbers(std::size_t count, u64 from, u64 step, int bytes, bool chosen) {
    std::vector<u64> found;
    for (u64 i = 0; found.size() < count; ++i) {
        const u64 number = from + i * step;
        if (chosen ? is_chosen(number, bytes) : i % 1024 == 0) found.push_back(number);
    }
    return found;
}

static constexpr u64 PAGE = 1024;
static constexpr std::size_t PAGES = 20000, WALKS = 8000, HINTS = 50;

// A chain of implications, of which the proof makes a copy each under a far identifier, and then walks along parts of it.
static void write_identifiers(const char *proof, bool chosen) {
    const std::vector<u64> pages = numbers(PAGES, u64(1) << 40, 1, 8, chosen);
    std::FILE *file = open_to_write(proof);
    for (std::size_t k = 1; k <= PAGES; ++k)
        std::fprintf(file, "%llu -%zu %zu 0 %zu 0\n", static_cast<unsigned long long>(pages[k - 1] * PAGE), k, k + 1, k);
    u64 id = pages.back() * PAGE;
    for (std::size_t walk = 0; walk < WALKS; ++walk) {
        const std::size_t start = 1 + walk * 7919 % (PAGES - HINTS);
        std::fprintf(file, "%llu -%zu %zu 0 ", static_cast<unsigned long long>(++id), start, start + HINTS);
        for (std::size_t k = start; k < start + HINTS; ++k) std::fprintf(file, "%llu ", static_cast<unsigned long long>(pages[k - 1] * PAGE));
        std::fputs("0\n", file);
        std::fprintf(file, "%llu d %llu 0\n", static_cast<unsigned long long>(id), static_cast<unsigned long long>(id));
    }
    std::fprintf(file, "%llu 0 %zu ", static_cast<unsigned long long>(++id), PAGES + 1);
    for (std::size_t k = 1; k <= PAGES; ++k) std::fprintf(file, "%llu ", static_cast<unsigned long long>(pages[k - 1] * PAGE));
    std::fprintf(file, "%zu 0\n", PAGES + 2);
    std::fclose(file);
}

static void write_chain(const char *name) {
    std::FILE *file = open_to_write(name);
    std::fprintf(file, "p cnf %zu %zu\n", PAGES + 1, PAGES + 2);
    for (std::size_t k = 1; k <= PAGES; ++k) std::fprintf(file, "-%zu %zu 0\n", k, k + 1);
    std::fprintf(file, "1 0\n-%zu 0\n", PAGES + 1);
    std::fclose(file);
}

static constexpr std::size_t LITERALS = 200000;

// The keys of positive literals, which are twice their variables.
static std::vector<u64> far_literals(bool chosen) { return numbers(LITERALS, u64(2) * 20000000, 2, 4, chosen); }

static void write_formula(const char *name, const std::vector<u64> &literals) {
    std::FILE *file = open_to_write(name);
    std::fprintf(file, "p cnf 268435455 %zu\n", literals.size() / 2);
    for (std::size_t i = 0; i + 1 < literals.size(); i += 2) std::fputs(text_of({literals[i], literals[i + 1]}).c_str(), file);
    std::fclose(file);
}

static void write_model(const char *name, const std::vector<u64> &literals) {
    std::FILE *file = open_to_write(name);
    std::fputs("s SATISFIABLE\n", file);
    for (u64 literal : literals) std::fprintf(file, "v %llu\n", static_cast<unsigned long long>(literal / 2));
    std::fputs("v 0\n", file);
    std::fclose(file);
}

int main(int argc, char **argv) {
    const std::string what = argc > 1 ? argv[1] : "";
    if (what == "clauses" && argc == 4) {
        write_clauses(argv[2], argv[3]);
    } else if (what == "identifiers" && argc == 5) {
        write_chain(argv[2]);
        write_identifiers(argv[3], true);
        write_identifiers(argv[4], false);
    } else if (what == "variables" && argc == 4) {
        write_formula(argv[2], far_literals(true));
        write_formula(argv[3], far_literals(false));
    } else if (what == "model" && argc == 6) {
        write_formula(argv[2], far_literals(true));
        write_model(argv[3], far_literals(true));
        write_formula(argv[4], far_literals(false));
        write_model(argv[5], far_literals(false));
    } else {
        std::fputs("usage: collisions clauses|identifiers|variables|model FILE..\n", stderr);
        return 6;
    }
}
