// Start, ask and report in plain C++: the measure for crates/bench_guard. The same standard input, and the same line to print.
#include "shield.hpp"

constexpr uint32_t tick_limit = 16777216;
constexpr int nothing = -1;

struct State { uint8_t age; int16_t given; };  // no job in hand: given below 0
struct Counts { uint32_t arrived, finished, replaced; };
struct Run {
    std::array<State, 7> states;
    std::array<Counts, 7> counts;
    uint32_t ticks, substitutions, reading;
    int awaited;
};
struct Asked { Refusal refusal; uint8_t choice; Run run; };
struct Reported { Refusal refusal; Run run; };

static bool in_hand(const State &x) { return x.given >= 0; }
static bool runnable(const Task &t, const State &x) { return in_hand(x) && x.age < t.deadline; }
static bool legal(const Set &s, const Run &r, int c) { return c == 0 || (c <= s.count && runnable(s.tasks[c - 1], r.states[c - 1])); }

static bool fits(const Set &s, const Run &r) {
    if (r.ticks > tick_limit) return false;
    if (r.awaited == nothing) {
        if (r.substitutions > r.ticks) return false;
    } else if (r.ticks == tick_limit || r.substitutions > r.ticks + 1 || !legal(s, r, r.awaited)) {
        return false;
    }
    for (size_t k = 0; k < 7; k++) {
        const State &x = r.states[k];
        const Counts &n = r.counts[k];
        if (k >= s.count) {
            if (x.age != 0 || in_hand(x) || n.arrived != 0 || n.finished != 0 || n.replaced != 0) return false;
            continue;
        }
        const Task &t = s.tasks[k];
        if (x.age >= longest(t.gaps) || (in_hand(x) && static_cast<uint32_t>(x.given) >= longest(t.runs))) return false;
        if (n.arrived != static_cast<uint64_t>(n.finished) + n.replaced + in_hand(x)) return false;
        if (n.arrived < 1 || n.arrived > r.ticks + 1) return false;
    }
    return true;
}

static size_t index_of(const Set &s, const Run &r) {
    size_t at = 0;
    for (size_t k = s.count; k-- > 0;) {
        const Task &t = s.tasks[k];
        const State &x = r.states[k];
        const uint32_t cmax = longest(t.runs);
        at = at * locals(t) + x.age * (cmax + 1) + (in_hand(x) ? x.given : cmax);
    }
    return at;
}

static Asked refuse_ask(const Run &r, Refusal f) { return {f, 0, r}; }

__attribute__((noinline)) static Asked ask(const Set &s, const std::vector<uint8_t> &table, const Run &r, uint8_t proposal) {
    const Refusal f = refusal(s);
    if (f.number != 0) return refuse_ask(r, f);
    const size_t n = states(s);
    if (table.size() < n) return refuse_ask(r, {7, static_cast<uint32_t>(n)});
    if (!fits(s, r)) return refuse_ask(r, {21, 0});
    if (r.awaited != nothing) return refuse_ask(r, {14, 0});
    if (r.ticks == tick_limit) return refuse_ask(r, {20, 0});
    if (proposal > s.count) return refuse_ask(r, {15, 0});
    const size_t i = index_of(s, r);
    const uint8_t entry = table[i];
    bool serves = entry != 0;
    for (int c = 1; c < 8; c++)
        if ((entry >> c) % 2 == 1 && !legal(s, r, c)) serves = false;
    if (!serves) return refuse_ask(r, {16, static_cast<uint32_t>(i)});
    uint8_t choice = proposal;
    if ((entry >> proposal) % 2 == 0) {
        choice = 0;
        int least = 0;
        for (int k = 0; k < s.count; k++) {
            const int slack = s.tasks[k].deadline - r.states[k].age;
            if ((entry >> (k + 1)) % 2 == 1 && (choice == 0 || slack < least)) {
                choice = k + 1;
                least = slack;
            }
        }
    }
    Asked a{{0, 0}, choice, r};
    a.run.awaited = choice;
    a.run.substitutions += choice != proposal;
    return a;
}

__attribute__((noinline)) static Reported report(const Set &s, const Run &r, uint32_t reading, bool finished, uint8_t arrivals) {
    const Refusal f = refusal(s);
    if (f.number != 0) return {f, r};
    if (!fits(s, r)) return {{21, 0}, r};
    if (r.awaited == nothing) return {{14, 0}, r};
    if (reading != r.reading + 1) return {{17, 0}, r};
    if ((finished && r.awaited == 0) || (arrivals >> s.count) != 0) return {{18, 0}, r};
    Reported out{{0, 0}, r};
    uint32_t missed = 0;
    for (uint32_t k = 0; k < s.count; k++) {
        const Task &t = s.tasks[k];
        State &x = out.run.states[k];
        Counts &n = out.run.counts[k];
        const bool run = r.awaited == static_cast<int>(k) + 1, ends = run && finished, comes = (arrivals >> k) % 2 == 1;
        if (run) {
            const uint32_t given = x.given + 1;
            if (ends ? !has(t.runs, given) : given == longest(t.runs)) return {{18, 0}, r};
            x.given = ends ? -1 : static_cast<int16_t>(given);
        }
        const uint32_t age = x.age + 1;
        if (comes ? !has(t.gaps, age) : age == longest(t.gaps)) return {{18, 0}, r};
        if (t.kind == 1 && in_hand(x) && age >= t.deadline && missed == 0) missed = k + 1;
        n.arrived += comes;
        n.finished += ends;
        n.replaced += comes && in_hand(x);
        x = comes ? State{0, 0} : State{static_cast<uint8_t>(age), x.given};
    }
    if (missed != 0) return {{19, missed}, r};
    out.run.ticks++;
    out.run.reading = reading;
    out.run.awaited = nothing;
    return out;
}

static Run start(const Set &s, uint32_t reading) {
    Run r{};
    for (size_t k = 0; k < 7; k++) {
        r.states[k] = k < s.count ? State{0, 0} : State{0, -1};
        r.counts[k] = {k < s.count, 0, 0};
    }
    r.reading = reading;
    r.awaited = nothing;
    return r;
}

// Jobs finish and arrive as late as they can.
static uint8_t latest_arrivals(const Set &s, const Run &r) {
    uint8_t bits = 0;
    for (size_t k = 0; k < s.count; k++)
        if (r.states[k].age + 1u == longest(s.tasks[k].gaps)) bits |= 1u << k;
    return bits;
}

static bool finishes(const Set &s, const Run &r) {
    return r.awaited > 0 && r.states[r.awaited - 1].given + 1u == longest(s.tasks[r.awaited - 1].runs);
}

int main() {
    uint8_t b[49] = {};
    if (fread(b, 1, sizeof b, stdin) != sizeof b) return 1;
    const Set s = given(b);
    std::vector<uint8_t> table(60000), work(60000);
    build(s, table, work);
    const uint16_t asks = wide(b + 45), reports = wide(b + 47);
    Run r = start(s, 0);
    for (uint16_t i = 0; i < wide(b + 43); i++) {
        uint32_t total = 0;
        Run q = r;
        for (uint16_t j = 0; j < asks; j++) {
            q.reading = j;
            const Asked a = ask(s, table, q, j % (s.count + 1));
            total += a.refusal.number != 0 ? a.refusal.place : a.run.substitutions + a.choice;
        }
        const Run a = ask(s, table, r, 0).run;
        const bool end = finishes(s, a);
        const uint8_t bits = latest_arrivals(s, a);
        q = a;
        for (uint16_t j = 0; j < reports; j++) {
            q.reading = j;
            const Run o = report(s, q, j + 1u, end, bits).run;
            total += o.ticks + o.states[j % 7].age + o.counts[j % 7].arrived + o.counts[j % 7].finished;
        }
        r = report(s, a, a.reading + 1, end, bits).run;
        r.reading += total;
    }
    printf("ticks %u substitutions %u sum %u\n", r.ticks, r.substitutions, r.reading);
}
