// synth SPEC: a structure for each kind, made by its tableau and shrunk to its quotient by bisimulation, or the first kind that has none.
#include "tableau.hpp"

using namespace pairs;

namespace {

// Structures of the pairs of starts as one: the start states come first.
Made joined(std::vector<Made>& parts) {
    Made whole;
    for (Made& part : parts) whole.states.push_back(part.states[0]);
    whole.moves.resize(parts.size());
    for (u32 start = 0; start < parts.size(); start++) {
        u32 offset = u32(whole.states.size()) - 1;
        for (std::size_t s = 0; s < parts[start].states.size(); s++) {
            if (s > 0) whole.states.push_back(parts[start].states[s]), whole.moves.emplace_back();
            std::vector<u32>& moves = s > 0 ? whole.moves.back() : whole.moves[start];
            for (u32 move : parts[start].moves[s]) {
                u32 to = end_of(move);
                moves.push_back((to == 0 ? start : to + offset) | (move & SIDE_B));
            }
            std::sort(moves.begin(), moves.end());
        }
    }
    return whole;
}

// One state for each class of bisimilar states, by rounds: states stay together that have one label and moves to the same classes.
Made quotient(const Made& m) {
    struct Hash {
        std::size_t operator()(const std::vector<u32>& key) const {
            u64 hash = key.size();
            for (u32 word : key) hash = (hash ^ word) * 0x9E3779B97F4A7C15, hash ^= hash >> 29;
            return hash;
        }
    };
    std::size_t count = m.states.size(), classes = 0;
    std::vector<u32> of(count);
    std::vector<std::vector<u32>> keys(count);
    for (std::size_t s = 0; s < count; s++) of[s] = m.states[s][0] * 32u + m.states[s][1];
    for (std::size_t before = NONE; before != classes;) {
        before = classes;
        for (std::size_t s = 0; s < count; s++) {
            keys[s].clear();
            for (u32 move : m.moves[s]) keys[s].push_back(of[end_of(move)] | (move & SIDE_B));
            std::sort(keys[s].begin(), keys[s].end());
            keys[s].erase(std::unique(keys[s].begin(), keys[s].end()), keys[s].end());
            keys[s].push_back(of[s]);
        }
        std::unordered_map<std::vector<u32>, u32, Hash> numbers;
        for (std::size_t s = 0; s < count; s++) of[s] = numbers.try_emplace(keys[s], u32(numbers.size())).first->second;
        classes = numbers.size();
    }
    Made small;
    for (std::size_t s = 0; s < count; s++)
        if (of[s] == small.states.size()) {
            keys[s].pop_back();
            small.states.push_back(m.states[s]), small.moves.push_back(keys[s]);
        }
    return small;
}

template <int W> bool make(Kind& kind, const Role& a, const Role& b, std::vector<Made>& parts) {
    for (u8 p : a.starts)
        for (u8 q : b.starts)
            if (!Tableau<W>(kind.closure, a, b).synthesize(p, q, parts.emplace_back())) return false;
    return true;
}

void write(const Kind& kind, const Role& a, const Role& b, const Made& m, std::string& text) {
    text += "kind " + kind.name + "\n";
    for (auto [p, q] : m.states) text += "state " + a.locals[p] + " " + b.locals[q] + "\n";
    for (std::size_t s = 0; s < m.states.size(); s++)
        for (u32 move : m.moves[s])
            text += "move " + std::to_string(s) + (side_of(move) ? " b " : " a ") + std::to_string(end_of(move)) + "\n";
    text += "end\n";
}

}  // namespace

int main(int count, char** words) {
    if (count != 2) finish(1, "usage: synth SPEC\n");
    Spec spec = read_spec(words[1]);
    std::string text = "solution 1\n";
    for (Kind& kind : spec.kinds) {
        const Role &a = spec.role(kind, 0), &b = spec.role(kind, 1);
        std::size_t members = kind.closure.members.size();
        auto made = members <= 64 ? make<1> : members <= 128 ? make<2> : members <= 256 ? make<4> : make<8>;
        std::vector<Made> parts;
        if (!made(kind, a, b, parts)) finish(3, "unsatisfiable " + kind.name + "\n");
        write(kind, a, b, quotient(joined(parts)), text);
    }
    finish(0, text + "done\n");
}
