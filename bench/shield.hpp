// The builder and the tester with the same recursion, in plain C++.
#pragma once
#include "tasks.hpp"

struct Moves { bool misses, comes, ends; uint32_t ended; bool stays; uint32_t stayed; };
using Locals = std::array<uint32_t, 7>;


inline Moves moves_of(const Task &t, bool run, uint32_t local) {
    const uint32_t cmax = longest(t.runs), age = local / (cmax + 1) + 1, g = local % (cmax + 1);
    const uint32_t older = local + cmax + 1;
    const bool late = t.kind == 1 && t.deadline <= age;
    const bool comes = has(t.gaps, age), waits = age < longest(t.gaps);
    if (run) {
        const bool more = g + 1 < cmax;
        return {late && more, comes, has(t.runs, g + 1) && waits, older + (cmax - g), more && waits, older + 1};
    }
    return {late && g < cmax, comes, false, 0, waits, older};
}

inline bool walk_on(const Set &s, const Locals &d, const uint8_t *table, size_t choice, size_t k, size_t at) {
    if (k == 0) return table[at] != 0;
    const Task &t = s.tasks[k - 1];
    const Moves m = moves_of(t, choice == k, d[k - 1]);
    if (m.misses) return false;
    const size_t from = at * locals(t);
    if (m.comes && !walk_on(s, d, table, choice, k - 1, from)) return false;
    if (m.ends && !walk_on(s, d, table, choice, k - 1, from + m.ended)) return false;
    if (m.stays) return walk_on(s, d, table, choice, k - 1, from + m.stayed);
    return true;
}

inline bool is_legal(const Set &s, const Locals &d, size_t choice) {
    if (choice == 0) return true;
    if (choice > s.count) return false;
    const Task &t = s.tasks[choice - 1];
    const uint32_t cmax = longest(t.runs), local = d[choice - 1];
    return local % (cmax + 1) < cmax && local / (cmax + 1) < t.deadline;
}

inline uint8_t next_entry(const Set &s, const uint8_t *table, size_t i) {
    const uint8_t old = table[i];
    if (old == 0) return 0;
    Locals d{};
    size_t rest = i;
    for (size_t k = 0; k < s.count; k++) {
        const size_t n = locals(s.tasks[k]);
        d[k] = rest % n;
        rest /= n;
    }
    uint8_t entry = 0;
    for (size_t c = 0; c < 8; c++)
        if ((old >> c) % 2 == 1 && is_legal(s, d, c) && walk_on(s, d, table, c, s.count, 0)) entry += 1u << c;
    return entry;
}

// The answers as the numbers that are summed.
inline uint32_t build(const Set &s, std::vector<uint8_t> &table, std::vector<uint8_t> &work) {
    const size_t n = states(s);
    for (size_t i = 0; i < n; i++) table[i] = 255;
    uint32_t left = n, rounds = 0;
    for (;;) {
        for (size_t i = 0; i < n; i++) work[i] = next_entry(s, table.data(), i);
        for (size_t i = 0; i < n; i++) table[i] = work[i];
        if (table[0] == 0) {
            for (size_t i = 0; i < n; i++) table[i] = work[i] = 0;
            return rounds + 1;
        }
        uint32_t now = 0;
        for (size_t i = 0; i < n; i++) now += table[i] != 0;
        if (now == left) break;
        left = now;
        rounds++;
    }
    for (size_t i = 0; i < n; i++) work[i] = 0;
    return left + rounds + table[0];
}

inline uint32_t test(const Set &s, const std::vector<uint8_t> &table) {
    const size_t n = states(s);
    if (table[0] == 0) return 0;
    for (size_t i = 0; i < n; i++)
        if (table[i] != 0 && next_entry(s, table.data(), i) != table[i]) return i;
    return 1;
}
