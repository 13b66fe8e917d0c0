// A reader of sheets in plain C++: the measure for crates/bench_sheet. The same standard input, and the same line to print.
#include "tasks.hpp"

struct Read { Refusal refusal; Set set; };

// A place in the text: where a byte does not fit, the form's fault is there.
struct Cursor {
    const uint8_t *text;
    size_t length, at;

    int peek() const { return at < length ? text[at] : -1; }
    bool take(uint8_t b) {
        if (peek() != b) return false;
        at++;
        return true;
    }
    bool word(const char *w) {
        for (; *w; w++)
            if (!take(static_cast<uint8_t>(*w))) return false;
        return true;
    }
    // 1 to 16, with no leading zero
    bool number(uint32_t &n) {
        const int b = peek();
        if (b < '1' || b > '9') return false;
        at++;
        n = static_cast<uint32_t>(b - '0');
        const int c = peek();
        if (n == 1 && c >= '0' && c <= '6') {
            at++;
            n = 10 + static_cast<uint32_t>(c - '0');
        }
        return true;
    }
    // values with commas between; an empty list if they do not rise
    bool list(uint16_t &bits) {
        uint32_t last = 0, all = 0;
        bool rises = true;
        do {
            uint32_t n = 0;
            if (!number(n)) return false;
            rises = rises && n > last;
            last = n;
            all |= 1u << (n - 1);
        } while (take(','));
        bits = rises ? static_cast<uint16_t>(all) : 0;
        return true;
    }
    bool name(std::array<uint8_t, 16> &name) {
        size_t n = 0;
        while (n < 16 && peek() >= 0 && name_byte(static_cast<uint8_t>(peek()))) name[n++] = text[at++];
        return n > 0;
    }
    bool task(Task &t) {
        uint32_t deadline = 0;
        t.kind = peek() == 'h';
        if (!word(t.kind ? "hard " : "soft ") || !number(deadline) || !take(' ')) return false;
        t.deadline = static_cast<uint8_t>(deadline);
        return list(t.runs) && take(' ') && list(t.gaps) && take('\n');
    }
    bool sheet(Set &s) {
        if (!word("set ") || !name(s.name) || !take('\n')) return false;
        do {
            if (!task(s.tasks[s.count])) return false;
            s.count++;
        } while (s.count < 7 && at < length);
        return at == length;
    }
};

__attribute__((noinline)) static Read read(const uint8_t *text, size_t length) {
    if (length > 1024) return {{1, 0}, {}};
    Read r{};
    Cursor c{text, length, 0};
    if (!c.sheet(r.set)) return {{2, static_cast<uint32_t>(c.at)}, {}};
    r.refusal = refusal(r.set);
    if (r.refusal.number != 0) r.set = {};
    return r;
}

int main() {
    uint8_t b[1028] = {};
    if (fread(b, 1, sizeof b, stdin) != sizeof b) return 1;
    uint8_t *text = b + 4;
    const size_t length = wide(b + 2);
    uint32_t total = 0;
    for (uint16_t i = 0; i < wide(b); i++) {
        text[4] = static_cast<uint8_t>('A' + i % 26);
        const Read r = read(text, length);
        const Task &t = r.set.tasks[i % 7];
        total += r.refusal.number != 0 ? r.refusal.place + r.refusal.number : r.set.count + r.set.name[i % 16] + t.deadline + t.runs + t.gaps;
    }
    printf("sum %u\n", total);
}
