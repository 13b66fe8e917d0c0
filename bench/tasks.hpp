// Tasks and sets in plain C++, and the test of a set.
#pragma once
#include <array>
#include <cstddef>
#include <cstdint>
#include <cstdio>
#include <vector>

struct Task { uint8_t kind, deadline; uint16_t runs, gaps; };
struct Set { std::array<uint8_t, 16> name; uint8_t count; std::array<Task, 7> tasks; };
struct Refusal { uint8_t number; uint32_t place; };

inline uint32_t longest(uint16_t list) { return list ? 32 - __builtin_clz(list) : 0; }
inline uint32_t shortest(uint16_t list) { return list ? __builtin_ctz(list) + 1 : 0; }
inline bool has(uint16_t list, uint32_t v) { return v >= 1 && v <= 16 && (list >> (v - 1)) % 2 == 1; }
inline uint32_t locals(const Task &t) { return longest(t.gaps) * (longest(t.runs) + 1); }

inline size_t states(const Set &s) {
    size_t n = 1;
    for (size_t k = 0; k < s.count; k++) n *= locals(s.tasks[k]);
    return n;
}

inline bool name_byte(uint8_t b) { return (b >= 'A' && b <= 'Z') || (b >= '0' && b <= '9') || b == '-'; }

// The refusal of a set, of number 0 if there is none.
inline Refusal refusal(const Set &s) {
    size_t n = 0;
    while (n < 16 && name_byte(s.name[n])) n++;
    if (n == 0) return {3, 0};
    for (; n < 16; n++)
        if (s.name[n] != 0) return {3, 0};
    if (s.count < 1 || s.count > 7) return {3, 0};
    for (uint32_t k = 0; k < 7; k++) {
        const Task &t = s.tasks[k];
        if (k >= s.count) {
            if (t.kind != 0 || t.deadline != 0 || t.runs != 0 || t.gaps != 0) return {3, k + 1};
            continue;
        }
        if (t.kind > 1 || t.deadline < 1 || t.deadline > 16 || t.runs == 0 || t.gaps == 0) return {3, k + 1};
        if (longest(t.runs) > t.deadline) return {4, k + 1};
        if (shortest(t.gaps) < t.deadline) return {5, k + 1};
    }
    if (states(s) > 60000) return {6, 0};
    return {0, 0};
}

// A set from the benchmark's bytes: the count and seven records of six bytes.
inline uint16_t wide(const uint8_t *b) { return static_cast<uint16_t>(b[0] + 256 * b[1]); }

inline Set given(const uint8_t *b) {
    Set s{{'B', 'E', 'N', 'C', 'H'}, b[0], {}};
    for (size_t k = 0; k < 7; k++) s.tasks[k] = {b[6 * k + 1], b[6 * k + 2], wide(b + 6 * k + 3), wide(b + 6 * k + 5)};
    return s;
}
