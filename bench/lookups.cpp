// The look-ups of crates/bench_lookups in C++: with std::unordered_map, and with plain arrays where keys are dense.
//
//     c++ -O2 -std=c++17 -o lookups lookups.cpp
//     ./lookups ids|ids-array|trail|trail-array|store COUNT

#include <algorithm>
#include <array>
#include <cstdint>
#include <cstdio>
#include <cstdlib>
#include <string>
#include <unordered_map>
#include <vector>

namespace {

using u64 = uint64_t;
using Clause = std::array<int, 3>;

const u64 ENTRIES = 1000000;

u64 jump(u64 n) { return n * 6364136223846793005u + 1442695040888963407u; }
u64 entry_of(u64 n) { return (n >> 33) % ENTRIES; }
int literal(u64 n) { return int(n % 100000) + 1; }

// Three literals that an entry determines, sorted: a clause as a set.
Clause clause_of(u64 entry) {
    u64 first = jump(entry), second = jump(first);
    Clause c = {-literal(first >> 33), literal(second >> 33), literal(entry)};
    std::sort(c.begin(), c.end());
    return c;
}

struct Hash {
    size_t operator()(const Clause &c) const {
        u64 sum = 0;
        for (int l : c) {
            u64 x = u64(unsigned(l)) * 0x9E3779B97F4A7C15u;
            sum += x ^ (x >> 32);
        }
        return sum;
    }
};

template <class Test> u64 count_found(u64 count, Test is_there) {
    u64 found = 0, at = 1;
    for (u64 i = 0; i < count; ++i) {
        at = jump(at);
        found += is_there(entry_of(at));
    }
    return found;
}

u64 look_up(const std::string &what, u64 count) {
    if (what == "ids") {
        std::unordered_map<u64, u64> slots;
        for (u64 id = 1; id <= ENTRIES; ++id) slots.emplace(id, 0);
        return count_found(count, [&](u64 entry) { return slots.count(entry + 1) == 1; });
    }
    if (what == "ids-array") {
        std::vector<u64> slots(ENTRIES + 1, 1);
        return count_found(count, [&](u64 entry) { return slots[entry + 1] == 1; });
    }
    if (what == "trail") {
        std::unordered_map<int, signed char> values;
        for (u64 v = 1; v <= ENTRIES; ++v) values.emplace(int(v), 1);
        return count_found(count, [&](u64 entry) {
            auto it = values.find(int(entry) + 1);
            return it != values.end() && it->second == 1;
        });
    }
    if (what == "trail-array") {
        std::vector<signed char> values(2 * ENTRIES + 2, 0);
        for (u64 v = 1; v <= ENTRIES; ++v) values[2 * v] = 1;
        return count_found(count, [&](u64 entry) { return values[2 * (entry + 1)] == 1; });
    }
    if (what == "store") {
        std::unordered_multimap<Clause, u64, Hash> clauses;
        for (u64 entry = 0; entry < ENTRIES; ++entry) clauses.emplace(clause_of(entry), entry);
        return count_found(count, [&](u64 entry) { return clauses.find(clause_of(entry)) != clauses.end(); });
    }
    return 0;
}

} // namespace

int main(int words, char **word) {
    if (words != 3) {
        fprintf(stderr, "usage: lookups ids|ids-array|trail|trail-array|store COUNT\n");
        return 6;
    }
    printf("%llu\n", (unsigned long long)look_up(word[1], strtoull(word[2], nullptr, 10)));
}
