// Many processes as one system: where it begins, who has which neighbours, and what a firing makes of a pair.
#pragma once
#include <algorithm>
#include "solution.hpp"

namespace pairs {

constexpr u32 NO_STATE = ~u32(0);

// The state that a pair comes to where this side takes an arc to the local state: of several the one with number pick, modulo how many there
// are. NO_STATE where the other side does not permit the arc.
inline u32 next_state(const Structure& m, u32 state, int side, u8 to, u64 pick) {
    u32 count = 0, found = NO_STATE;
    auto each = [&](auto use) {
        for (u32 i = m.first[state]; i < m.first[state + 1]; i++)
            if (side_of(m.moves[i]) == side && m.states[end_of(m.moves[i])][side] == to) use(end_of(m.moves[i]));
    };
    each([&](u32 end) { count++, found = end; });
    if (count < 2) return found;
    pick %= count;
    each([&](u32 end) {
        if (pick-- == 0) found = end;
    });
    return found;
}

// A neighbour of a process: over which edge, on whose side `side` the process itself is.
struct Neighbour {
    u32 process, edge;
    int side;
};

struct System {
    const Spec& spec;
    const std::vector<Structure>& solution;
    std::vector<std::vector<Neighbour>> neighbours;  // of each process, by rising number of the neighbour
    std::vector<u32> start;                          // the pair state of each edge at the start

    System(const Spec& spec, const std::vector<Structure>& solution) : spec(spec), solution(solution), neighbours(spec.processes.size()) {
        for (u32 e = 0; e < spec.edges.size(); e++) {
            const Edge& edge = spec.edges[e];
            u32 at[2];
            for (int side : {0, 1}) {
                neighbours[edge.ends[side]].push_back({edge.ends[1 - side], e, side});
                const Process& p = spec.processes[edge.ends[side]];
                const auto& starts = spec.roles[p.role].starts;
                at[side] = u32(std::find(starts.begin(), starts.end(), p.start) - starts.begin());
            }
            start.push_back(at[0] * u32(spec.role(spec.kinds[edge.kind], 1).starts.size()) + at[1]);
        }
        for (auto& list : neighbours)
            std::sort(list.begin(), list.end(), [](const Neighbour& x, const Neighbour& y) { return x.process < y.process; });
    }
    const std::vector<Arc>& arcs(u32 process) const { return spec.roles[spec.processes[process].role].arcs; }
    const Structure& structure(u32 edge) const { return solution[spec.edges[edge].kind]; }
};

}  // namespace pairs
