// The whole tableau of Emerson and Clarke (1982) for one kind and one pair of starts: all rows of each choice, deletion, and unravelling with
// one strong until pursued at a time.
#pragma once
#include <algorithm>
#include <bit>
#include "spec.hpp"

namespace pairs {

constexpr u32 NONE = ~u32(0);
constexpr u32 ROOT_SIDE = 2;

// A set of members of a closure that has at most 64 W of them.
template <int W> struct Row {
    std::array<u64, W> words{};
    bool operator==(const Row&) const = default;
    bool has(u32 m) const { return words[m / 64] >> (m % 64) & 1; }
    void add(u32 m) { words[m / 64] |= u64(1) << (m % 64); }
    Row with(u32 m) const {
        Row row = *this;
        row.add(m);
        return row;
    }
    bool meets(const Row& other) const {
        u64 shared = 0;
        for (int i = 0; i < W; i++) shared |= words[i] & other.words[i];
        return shared != 0;
    }
    // The lowest member that the other row lacks.
    u32 lowest_beside(const Row& other) const {
        for (int i = 0; i < W; i++)
            if (u64 word = words[i] & ~other.words[i]) return u32(64 * i + std::countr_zero(word));
        return NONE;
    }
    // How many members below m it shares with the other row.
    u32 shared_below(const Row& other, u32 m) const {
        int count = 0;
        for (u32 i = 0; i < m / 64; i++) count += std::popcount(words[i] & other.words[i]);
        return u32(count + std::popcount(words[m / 64] & other.words[m / 64] & ((u64(1) << (m % 64)) - 1)));
    }
    template <class Do> void each_shared(const Row& other, Do use) const {
        for (int i = 0; i < W; i++)
            for (u64 word = words[i] & other.words[i]; word; word &= word - 1) use(u32(64 * i + std::countr_zero(word)));
    }
};

// Nodes by number, each label and row once.
template <int W> class NodeTable {
  public:
    std::vector<Row<W>> rows;
    std::vector<u16> labels;

    u32 number(const Row<W>& row, u16 label) {
        if (2 * rows.size() >= slots.size()) grow();
        std::size_t at = place(row, label);
        for (; slots[at] != NONE; at = (at + 1) & (slots.size() - 1))
            if (labels[slots[at]] == label && rows[slots[at]] == row) return slots[at];
        slots[at] = u32(rows.size());
        rows.push_back(row), labels.push_back(label);
        return slots[at];
    }

  private:
    std::vector<u32> slots;

    std::size_t place(const Row<W>& row, u16 label) const {
        u64 hash = label;
        for (u64 word : row.words) hash = (hash ^ word) * 0x9E3779B97F4A7C15, hash ^= hash >> 32;
        return hash & (slots.size() - 1);
    }
    void grow() {
        slots.assign(std::max<std::size_t>(1024, 2 * slots.size()), NONE);
        for (u32 n = 0; n < rows.size(); n++) {
            std::size_t at = place(rows[n], labels[n]);
            while (slots[at] != NONE) at = (at + 1) & (slots.size() - 1);
            slots[at] = n;
        }
    }
};

// The ends of edges, those of each node behind those of the one before.
struct Edges {
    std::vector<u32> first{0}, ends;
    std::size_t nodes() const { return first.size() - 1; }
    void close() { first.push_back(u32(ends.size())); }
    const u32* begin(u32 n) const { return ends.data() + first[n]; }
    const u32* end(u32 n) const { return ends.data() + first[n + 1]; }
    // The edges the other way round.
    Edges turned(std::size_t count) const {
        Edges back;
        back.first.assign(count + 2, 0), back.ends.resize(ends.size());
        for (u32 n : ends) back.first[n + 2]++;
        for (std::size_t n = 2; n < count + 2; n++) back.first[n] += back.first[n - 1];
        for (u32 n = 0; n < nodes(); n++)
            for (const u32* to = begin(n); to != end(n); to++) back.ends[back.first[*to + 1]++] = n;
        back.first.pop_back();
        return back;
    }
};

// A structure as it is made: labels, and for each state its moves, rising.
struct Made {
    std::vector<std::array<u8, 2>> states;
    std::vector<std::vector<u32>> moves;
};

template <int W> class Tableau {
  public:
    Tableau(Closure& c, const Role& a, const Role& b) : c(c), roles{&a, &b}, marks(1024), marked(1024) {
        for (u32 m = 0; m < c.members.size(); m++) {
            const Node& n = c.members[m];
            if (n.op != Op::And && n.op != Op::Or && n.op != Op::Until) inert.add(m);
            if (n.op == Op::Next) (n.all ? alls : somes).add(m);
            if (n.op == Op::Until && !n.weak) targets.push_back(m);
            after.push_back(n.op == Op::Until ? std::array{c.after(m, 0), c.after(m, 1)} : std::array{0u, 0u});
        }
    }
    // The structure from these starts; false where there is none.
    bool synthesize(u8 p, u8 q, Made& made) {
        Row<W> seed;
        for (u32 root : c.roots) seed.add(root);
        ors.number(seed, label_of(ROOT_SIDE, p, q));
        while (children.nodes() < ors.rows.size() || successors.nodes() < ands.rows.size()) {
            while (children.nodes() < ors.rows.size()) expand_or(u32(children.nodes()));
            while (successors.nodes() < ands.rows.size()) expand_and(u32(successors.nodes()));
        }
        if (!prune()) return false;
        unravel(made);
        return true;
    }

  private:
    struct Marks {
        Row<W> easy, wrong;  // propositional members that the label makes true; 'false' and literals that it makes false
    };
    struct Open {
        Row<W> row, treated;
    };
    Closure& c;
    std::array<const Role*, 2> roles;
    Row<W> inert, somes, alls;
    std::vector<std::array<u32, 2>> after;
    std::vector<u32> targets;
    std::vector<Marks> marks;
    std::vector<bool> marked;
    NodeTable<W> ands, ors;
    Edges children, successors, parents, origins;  // parents: OR nodes with this child; origins: AND nodes with this successor
    std::vector<u32> seen, living;                 // by AND node: the last OR node that has it; by OR node: its living children
    std::vector<bool> dead;
    std::vector<std::vector<u32>> ranks;
    std::vector<Open> open;

    static u16 label_of(u32 side, u32 p, u32 q) { return u16(side << 10 | p << 5 | q); }

    // ---- the graph ----

    const Marks& marks_of(u16 label) {
        Marks& found = marks[label];
        if (marked[label]) return found;
        marked[label] = true;
        std::vector<int> value(c.members.size(), -1);  // -1: not propositional
        for (u32 m = 0; m < value.size(); m++) {
            const Node& n = c.members[m];
            if (n.op == Op::True || n.op == Op::False) value[m] = n.op == Op::True;
            if (n.op == Op::At) value[m] = ((n.side == 0 ? label >> 5 : label & 31) == n.local) == n.is;
            if ((n.op == Op::And || n.op == Op::Or) && value[n.f] >= 0 && value[n.g] >= 0)
                value[m] = n.op == Op::And ? value[n.f] & value[n.g] : value[n.f] | value[n.g];
            if (value[m] == 1) found.easy.add(m);
            if (value[m] == 0 && (n.op == Op::False || n.op == Op::At)) found.wrong.add(m);
        }
        return found;
    }
    // The rows of the seed at the label become children of the OR node.
    void expand(u32 node, const Row<W>& seed, u16 label) {
        const Marks& m = marks_of(label);
        open.push_back({seed, inert});
        while (!open.empty()) {
            auto [row, treated] = open.back();
            open.pop_back();
            u32 member = 0;
            while (!row.meets(m.wrong) && (member = row.lowest_beside(treated)) != NONE) {
                treated.add(member);
                treat(member, row, treated, m.easy);
            }
            if (member != NONE) continue;
            if (row.has(2) || row.has(3)) offer(node, row, label);
            else offer(node, row.with(2), label), offer(node, row.with(3), label);
        }
    }
    // Meets the member in the row; other ways to meet it are left open.
    void treat(u32 member, Row<W>& row, const Row<W>& treated, const Row<W>& easy) {
        const Node& n = c.members[member];
        if (n.op == Op::And) {
            row.add(n.f), row.add(n.g);
        } else if (n.op == Op::Or) {
            if (row.has(n.f) || row.has(n.g)) return;
            if (!easy.has(n.f) && !easy.has(n.g)) open.push_back({row.with(n.g), treated});
            row.add(easy.has(n.g) && !easy.has(n.f) ? n.g : n.f);
        } else {
            if (row.has(n.g)) return;
            if (!easy.has(n.g)) {
                Row<W> later = row.with(n.f);
                open.push_back({later.with(after[member][1]), treated});
                if (n.all) open.back().row.add(after[member][0]);
                else open.push_back({later.with(after[member][0]), treated});
            }
            row.add(n.g);
        }
    }
    void offer(u32 node, const Row<W>& row, u16 label) {
        u32 n = ands.number(row, label);
        if (n == seen.size()) seen.push_back(NONE);
        if (seen[n] == node) return;
        seen[n] = node;
        children.ends.push_back(n);
    }
    void expand_or(u32 node) {
        Row<W> seed = ors.rows[node];
        u16 label = ors.labels[node];
        u32 side = label >> 10, pair[2] = {label >> 5 & 31u, label & 31u};
        if (side == ROOT_SIDE) expand(node, seed, label_of(0, pair[0], pair[1]));
        else
            for (const Arc& arc : roles[side]->arcs)
                if (arc.from == pair[side]) expand(node, seed, side == 0 ? label_of(0, arc.to, pair[1]) : label_of(0, pair[0], arc.to));
        children.close();
    }
    void expand_and(u32 node) {
        Row<W> row = ands.rows[node], carried[2];
        row.each_shared(alls, [&](u32 m) { carried[c.members[m].side].add(c.members[m].f); });
        row.each_shared(somes, [&](u32 m) {
            const Node& n = c.members[m];
            successors.ends.push_back(ors.number(carried[n.side].with(n.f), u16(ands.labels[node] | n.side << 10)));
        });
        successors.close();
    }
    u32 next_or(u32 node, u32 member) const { return successors.begin(node)[ands.rows[node].shared_below(somes, member)]; }

    // ---- deletion ----

    bool prune() {
        parents = children.turned(ands.rows.size());
        origins = successors.turned(ors.rows.size());
        dead.assign(ands.rows.size(), false);
        living.resize(ors.rows.size());
        for (u32 o = 0; o < living.size(); o++) living[o] = children.first[o + 1] - children.first[o];
        for (u32 o = 0; o < living.size(); o++)
            if (living[o] == 0) delete_origins(o);
        ranks.resize(targets.size());
        for (bool again = true; again;) {
            again = false;
            for (std::size_t t = 0; t < targets.size(); t++) again |= delete_unmet(targets[t], ranks[t]);
        }
        return living[0] > 0;
    }
    void delete_origins(u32 empty) {
        std::vector<u32> todo{empty};
        while (!todo.empty()) {
            u32 o = todo.back();
            todo.pop_back();
            for (const u32* n = origins.begin(o); n != origins.end(o); n++) delete_and(*n, todo);
        }
    }
    void delete_and(u32 n, std::vector<u32>& emptied) {
        if (dead[n]) return;
        dead[n] = true;
        for (const u32* o = parents.begin(n); o != parents.end(n); o++)
            if (--living[*o] == 0) emptied.push_back(*o);
    }
    // Ranks the nodes with strong until u, and deletes those at which it is not fulfilled; whether there were any.
    bool delete_unmet(u32 u, std::vector<u32>& rank) {
        const Node& until = c.members[u];
        std::size_t count = ands.rows.size();
        rank.assign(count, NONE);
        std::vector<u32> queue, waits(until.all ? count : 0);
        std::vector<bool> reached(ors.rows.size());
        for (u32 n = 0; n < count; n++) {
            if (dead[n] || !ands.rows[n].has(u)) continue;
            if (ands.rows[n].has(until.g)) rank[n] = 0, queue.push_back(n);
            if (until.all) waits[n] = successors.first[n + 1] - successors.first[n];
        }
        for (std::size_t i = 0; i < queue.size(); i++)
            for (const u32* o = parents.begin(queue[i]); o != parents.end(queue[i]); o++) {
                if (reached[*o]) continue;
                reached[*o] = true;
                for (const u32* n = origins.begin(*o); n != origins.end(*o); n++) {
                    if (dead[*n] || rank[*n] != NONE || !ands.rows[*n].has(u)) continue;
                    if (until.all ? --waits[*n] > 0 : !goes_on(*n, u, *o)) continue;
                    rank[*n] = rank[queue[i]] + 1;
                    queue.push_back(*n);
                }
            }
        std::vector<u32> emptied;
        bool any = false;
        for (u32 n = 0; n < count; n++)
            if (!dead[n] && rank[n] == NONE && ands.rows[n].has(u)) any = true, delete_and(n, emptied);
        for (u32 o : emptied) delete_origins(o);
        return any;
    }
    // The E until goes on through this successor.
    bool goes_on(u32 n, u32 u, u32 successor) const {
        for (u32 side : {0, 1})
            if (ands.rows[n].has(after[u][side]) && next_or(n, after[u][side]) == successor) return true;
        return false;
    }

    // ---- unravelling ----

    bool pends(u32 n, u32 place) const {
        u32 u = targets[place];
        return ands.rows[n].has(u) && !ands.rows[n].has(c.members[u].g);
    }
    // The next place in turn whose until pends at the node.
    u32 turned(u32 n, u32 place) const {
        for (u32 i = 1; i <= targets.size(); i++) {
            u32 next = (place + i) % u32(targets.size());
            if (pends(n, next)) return next;
        }
        return place;
    }
    u32 living_child(u32 o) const {
        const u32* n = children.begin(o);
        while (dead[*n]) n++;
        return *n;
    }
    u32 nearest_child(u32 o, const std::vector<u32>& rank) const {
        u32 best = living_child(o);
        for (const u32* n = children.begin(o); n != children.end(o); n++)
            if (!dead[*n] && rank[*n] < rank[best]) best = *n;
        return best;
    }
    // The successor through which the E until of the place goes on at the node.
    u32 keeper(u32 n, u32 place) const {
        u32 best = NONE, found = NONE;
        for (u32 side : {0, 1}) {
            u32 m = after[targets[place]][side];
            if (!ands.rows[n].has(m)) continue;
            u32 o = next_or(n, m), rank = ranks[place][nearest_child(o, ranks[place])];
            if (found == NONE || rank < best) best = rank, found = o;
        }
        return found;
    }
    void unravel(Made& made) {
        std::vector<std::array<u32, 2>> positions;
        std::unordered_map<u64, u32> numbers;
        auto number = [&](u32 n, u32 place) {
            auto [at, fresh] = numbers.try_emplace(u64(n) << 32 | place, u32(positions.size()));
            if (fresh) positions.push_back({n, place});
            return at->second;
        };
        number(living_child(0), 0);
        for (u32 s = 0; s < positions.size(); s++) {
            auto [n, place] = positions[s];
            u16 label = ands.labels[n];
            made.states.push_back({u8(label >> 5), u8(label & 31)});
            std::vector<u32>& moves = made.moves.emplace_back();
            bool pending = !targets.empty() && pends(n, place);
            u32 kept = pending && !c.members[targets[place]].all ? keeper(n, place) : NONE;
            const u32* o = successors.begin(n);
            ands.rows[n].each_shared(somes, [&, n = n, place = place](u32 m) {
                bool pursues = pending && (kept == NONE || *o == kept);
                u32 to = pursues ? nearest_child(*o, ranks[place]) : living_child(*o);
                u32 next = targets.empty() || (pursues && pends(to, place)) ? place : turned(to, place);
                moves.push_back(number(to, next) | (c.members[m].side ? SIDE_B : 0));
                o++;
            });
            std::sort(moves.begin(), moves.end());
            moves.erase(std::unique(moves.begin(), moves.end()), moves.end());
        }
    }
};

}  // namespace pairs
