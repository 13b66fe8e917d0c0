// The measure for crates/bench_shield: the same standard input, and the same line to print.
#include "shield.hpp"

int main() {
    uint8_t b[47] = {};
    if (fread(b, 1, sizeof b, stdin) != sizeof b) return 1;
    const Set s = given(b);
    std::vector<uint8_t> table(60001), work(60001);
    uint32_t built = 0, tested = 0;
    for (uint16_t i = 0; i < wide(b + 43); i++) {
        table[60000] = i % 256;
        built += build(s, table, work);
    }
    for (uint16_t i = 0; i < wide(b + 45); i++) {
        table[60000] = i % 256;
        tested += test(s, table);
    }
    printf("built %u tested %u\n", built, tested);
}
