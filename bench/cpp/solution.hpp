// A solution: structures, read strictly from a text, and the truth of formulas at their states.
#pragma once
#include "spec.hpp"

namespace pairs {

// The moves of state s are moves[first[s]] to moves[first[s + 1]], rising.
struct Structure {
    std::vector<std::array<u8, 2>> states;
    std::vector<u32> first, moves;
};

// The lines of a strict text. Words are parted by one space; each line has its line feed.
class Strict {
  public:
    std::size_t line = 0;
    explicit Strict(Text text) : place(text.data()), limit(text.data() + text.size()) {}

    bool at_end() const { return place == limit; }
    // Steps to the next line.
    void open() {
        begin = at = place;
        const char* feed = static_cast<const char*>(memchr(place, '\n', std::size_t(limit - place)));
        ended = feed != nullptr;
        end = ended ? feed : limit;
        place = ended ? feed + 1 : limit;
        line++;
    }
    // The next word is this one.
    bool word(Text wanted) {
        if (at != begin && !(at < end && *at++ == ' ')) return false;
        if (std::size_t(end - at) < wanted.size() || memcmp(at, wanted.data(), wanted.size()) != 0) return false;
        at += wanted.size();
        return true;
    }
    // The next word, whatever it is.
    Text any() {
        if (at == end || *at++ != ' ') return {};
        const char* from = at;
        while (at < end && *at != ' ') at++;
        return {from, std::size_t(at - from)};
    }
    bool number(u64& n) {
        if (at == end || *at++ != ' ') return false;
        const char* from = at;
        n = 0;
        for (; at < end && is_digit(*at); at++) {
            u64 digit = u64(*at - '0');
            if (n > (~u64(0) - digit) / 10) return false;
            n = 10 * n + digit;
        }
        return at > from && (*from != '0' || at == from + 1);
    }
    // No further word, and the line feed follows.
    bool over() const { return at == end && ended; }
    bool is_line(Text words) const { return ended && Text(begin, std::size_t(end - begin)) == words; }

    [[noreturn]] void refuse(const char* cause) const {
        for (const char* c = begin; c < end; c++)
            if (*c < 32 || *c > 126) throw Refused{line, "NotText"};
        throw Refused{line, cause};
    }
    void check(bool fine, const char* cause) const {
        if (!fine) refuse(cause);
    }
    void head(Text words) {
        if (at_end()) throw Refused{1, "BadHead"};
        open();
        check(Text(begin, std::size_t(end - begin)) == words, "BadHead");
        check(ended, "BadLine");
    }
    void must_go_on() {
        if (at_end()) throw Refused{line + 1, "BadLine"};
        open();
    }

  private:
    const char *place, *limit, *begin = nullptr, *end = nullptr, *at = nullptr;
    bool ended = false;
};

// The structure of one kind, made line by line. `lawful`: nothing is wrong with the moves so far.
class StructureReader {
  public:
    StructureReader(const Role& a, const Role& b) : roles{&a, &b} {
        for (int side : {0, 1})
            for (const Arc& arc : roles[side]->arcs) ends[side][arc.from] |= 1u << arc.to;
    }
    // Lines up to `end`; the line that opened the kind is read.
    Structure read(Strict& in) {
        for (;;) {
            in.must_go_on();
            if (in.word("state")) state(in);
            else if (in.word("move")) move(in);
            else break;
        }
        in.check(in.is_line("end"), "BadLine");
        in.check(is_structure(), "NotAPair");
        return std::move(made);
    }

  private:
    std::array<const Role*, 2> roles;
    u32 ends[2][32] = {};  // the local states to which arcs lead
    std::size_t memo[2][256] = {};
    Structure made;
    u64 from_before = 0, move_before = 0;
    bool lawful = true, moved = false;

    int local(int side, Text name) {
        const auto& names = roles[side]->locals;
        std::size_t& last = memo[side][u8(name.back())];  // names differ in their last byte, most often
        if (names[last] == name) return int(last);
        int n = find(names, name);
        if (n >= 0) last = std::size_t(n);
        return n;
    }
    void state(Strict& in) {
        Text a = in.any(), b = in.any();
        in.check(in.over() && !moved && is_name(a) && is_name(b), "BadLine");
        int p = local(0, a), q = local(1, b);
        in.check(p >= 0 && q >= 0, "UnknownName");
        made.states.push_back({u8(p), u8(q)});
    }
    void move(Strict& in) {
        u64 from = 0, to = 0;
        bool fine = in.number(from);
        Text side = in.any();
        in.check(fine && (side == "a" || side == "b") && in.number(to) && in.over(), "BadLine");
        if (!moved) made.first.reserve(made.states.size() + 1), made.moves.reserve(made.states.size());
        put(from, side[0] - 'a', to);
        moved = true;
    }
    void put(u64 from, int side, u64 to) {
        u64 count = made.states.size();
        lawful = lawful && from < count && to < count && (!moved || from >= from_before);
        if (!lawful) return;
        u64 move = to | (side ? SIDE_B : 0);
        bool rises = !moved || from > from_before || move > move_before;
        auto s = made.states[from], t = made.states[to];
        lawful = rises && (ends[side][s[side]] >> t[side] & 1) && s[1 - side] == t[1 - side];
        while (made.first.size() <= from) made.first.push_back(u32(made.moves.size()));
        made.moves.push_back(u32(move));
        from_before = from, move_before = move;
    }
    bool is_structure() {
        std::size_t count = made.states.size(), n = roles[1]->starts.size();
        if (!lawful || count < roles[0]->starts.size() * n) return false;
        for (std::size_t i = 0; i < roles[0]->starts.size(); i++)
            for (std::size_t j = 0; j < n; j++)
                if (made.states[i * n + j] != std::array<u8, 2>{roles[0]->starts[i], roles[1]->starts[j]}) return false;
        while (made.first.size() <= count) made.first.push_back(u32(made.moves.size()));
        for (std::size_t s = 0; s < count; s++)
            if (made.first[s] == made.first[s + 1]) return false;
        return true;
    }
};

// The structures of a solution's text, one for each kind.
inline std::vector<Structure> structures_of(Text text, const Spec& spec) {
    Strict in(text);
    std::vector<Structure> made;
    in.head("solution 1");
    for (const Kind& kind : spec.kinds) {
        in.must_go_on();
        bool is_kind = in.word("kind");
        Text name = is_kind ? in.any() : Text();
        in.check(in.over() && is_name(name), "BadLine");
        in.check(name == kind.name, "UnknownName");
        made.push_back(StructureReader(spec.role(kind, 0), spec.role(kind, 1)).read(in));
    }
    in.must_go_on();
    in.check(in.is_line("done"), "BadLine");
    if (!in.at_end()) {
        in.open();
        in.refuse("BadLine");
    }
    return made;
}

// Those of a file; a text that is refused ends the program.
inline std::vector<Structure> read_solution(const char* path, const Spec& spec) {
    File file = read_file(path, "solution", 67'108'864);
    try {
        return structures_of(file, spec);
    } catch (Refused why) {
        refuse("solution", why);
    }
}

// ---- truth ----------------------------------------------------------------------------------------------------------------------------

// Labels the states with the members of a closure, one bit a state and member, parts first.
class Labelling {
  public:
    Labelling(const Structure& m, const Closure& c) : m(m), c(c), count(m.states.size()), rows(c.members.size()) {}

    bool holds(u32 member, std::size_t starts) {
        label(member);
        for (std::size_t s = 0; s < starts; s++)
            if (!has(rows[member], s)) return false;
        return true;
    }

  private:
    using Bits = std::vector<u64>;
    const Structure& m;
    const Closure& c;
    std::size_t count;
    std::vector<Bits> rows;
    std::vector<u32> first_before, before, todo;  // predecessors: first_before and before are as first and moves
    std::vector<u32> waits;

    static bool has(const Bits& row, std::size_t s) { return row[s / 64] >> (s % 64) & 1; }
    static void set(Bits& row, std::size_t s) { row[s / 64] |= u64(1) << (s % 64); }
    template <class Test> Bits made(Test test) const {
        Bits row((count + 63) / 64);
        for (std::size_t s = 0; s < count; s++) row[s / 64] |= u64(test(s)) << (s % 64);
        return row;
    }
    template <class Word> Bits joined(const Bits& f, const Bits& g, Word word) const {
        Bits row(f.size());
        for (std::size_t i = 0; i < row.size(); i++) row[i] = word(f[i], g[i]);
        return row;
    }
    void label(u32 member) {
        if (!rows[member].empty()) return;
        const Node& n = c.members[member];
        if (n.op == Op::And || n.op == Op::Or || n.op == Op::Until) label(n.f), label(n.g);
        if (n.op == Op::Next) label(n.f);
        const Bits &f = rows[n.f], &g = rows[n.g];
        switch (n.op) {
            case Op::True: rows[member] = made([](std::size_t) { return true; }); break;
            case Op::False: rows[member] = made([](std::size_t) { return false; }); break;
            case Op::At: rows[member] = made([&](std::size_t s) { return (m.states[s][n.side] == n.local) == n.is; }); break;
            case Op::And: rows[member] = joined(f, g, [](u64 x, u64 y) { return x & y; }); break;
            case Op::Or: rows[member] = joined(f, g, [](u64 x, u64 y) { return x | y; }); break;
            case Op::Next: rows[member] = made([&](std::size_t s) { return next(n, f, s); }); break;
            default: rows[member] = until(n, f, g);
        }
    }
    bool next(const Node& n, const Bits& f, std::size_t s) const {
        for (u32 i = m.first[s]; i < m.first[s + 1]; i++)
            if (side_of(m.moves[i]) == n.side && has(f, end_of(m.moves[i])) != n.all) return !n.all;
        return n.all;
    }
    // A weak until is where the strong one of the negations is not: A[f W g] is the negation of E[!g U (!f & !g)].
    Bits until(const Node& n, const Bits& f, const Bits& g) {
        if (!n.weak) return strong(n.all, f, g);
        Bits row = strong(!n.all, joined(g, g, [](u64 x, u64) { return ~x; }), joined(f, g, [](u64 x, u64 y) { return ~(x | y); }));
        for (u64& word : row) word = ~word;
        return row;
    }
    // From the states with g backwards, through states with f; for `all`, once none of a state's moves leads elsewhere.
    Bits strong(bool all, const Bits& f, const Bits& g) {
        turn_round();
        Bits row = g;
        todo.clear();
        for (std::size_t s = 0; s < count; s++)
            if (has(g, s)) todo.push_back(u32(s));
        if (all) {
            waits.resize(count);
            for (std::size_t s = 0; s < count; s++) waits[s] = m.first[s + 1] - m.first[s];
        }
        while (!todo.empty()) {
            u32 t = todo.back();
            todo.pop_back();
            for (u32 i = first_before[t]; i < first_before[t + 1]; i++) {
                u32 s = before[i];
                if (!has(f, s) || has(row, s) || (all && --waits[s] > 0)) continue;
                set(row, s);
                todo.push_back(s);
            }
        }
        return row;
    }
    void turn_round() {
        if (!first_before.empty()) return;
        first_before.resize(count + 2), before.resize(m.moves.size());
        for (u32 move : m.moves) first_before[end_of(move) + 2]++;
        for (std::size_t s = 2; s < count + 2; s++) first_before[s] += first_before[s - 1];
        for (u32 s = 0; s < count; s++)
            for (u32 i = m.first[s]; i < m.first[s + 1]; i++) before[first_before[end_of(m.moves[i]) + 1]++] = s;
    }
};

// Ends the program at the first kind whose structure does not satisfy it.
inline void must_solve(const Spec& spec, const std::vector<Structure>& solution) {
    for (std::size_t k = 0; k < spec.kinds.size(); k++) {
        const Kind& kind = spec.kinds[k];
        Labelling labelling(solution[k], kind.closure);
        std::size_t starts = spec.role(kind, 0).starts.size() * spec.role(kind, 1).starts.size();
        for (u32 root : kind.closure.roots)
            if (!labelling.holds(root, starts)) finish(4, "fails " + kind.name + "\n");
    }
}

}  // namespace pairs
