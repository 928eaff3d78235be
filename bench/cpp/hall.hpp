// Callers that fire one system at the same time, and the report of what each was told. One lock an edge (a process without edges has its
// own), one word a process, one word a pair, and a counter; all of them sequentially consistent.
#pragma once
#include <atomic>
#include <charconv>
#include <thread>
#include "system.hpp"

namespace pairs {

// A firing is entry `at`; it was away in local state `other`, or blocked by process `other`, at place `at`; process `other` was seen in
// local state `arc` after `at` firings.
struct Reply {
    enum What : u8 { Fired, Away, Blocked, Seen } what;
    u32 process, arc, other;
    u64 pick, at;
};

struct Entry {
    u32 caller, process, arc;
    u64 pick;
};

// A word has how often its process or pair moved in the upper half, and its local state or pair state in the lower.
inline u64 packed(u64 moves, u32 content) { return moves << 32 | content; }
inline u32 content_of(u64 word) { return u32(word); }
inline u64 moves_of(u64 word) { return word >> 32; }

class Hall {
  public:
    Hall(const System& system, u64 room)
        : system(system), plans(system.neighbours.size()), locks(system.start.size() + plans.size()), processes(plans.size()),
          edges(system.start.size()), history(room) {
        for (u32 k = 0; k < plans.size(); k++) {
            processes[k] = packed(0, system.spec.processes[k].start);
            for (const Neighbour& n : system.neighbours[k]) plans[k].push_back(n.edge);
            if (plans[k].empty()) plans[k].push_back(u32(system.start.size()) + k);
            std::sort(plans[k].begin(), plans[k].end());
        }
        for (u32 e = 0; e < edges.size(); e++) edges[e] = packed(0, system.start[e]);
    }
    // Fires the wish of a caller; after so many lost tries for locks false, and the caller may try again. `next` is the caller's own.
    bool fire(u32 caller, u32 process, u32 arc, u64 pick, int tries, std::vector<u64>& next, Reply& reply) {
        const std::vector<u32>& plan = plans[process];
        for (std::size_t i = 0; i < plan.size(); i++)
            if (!lock(plan[i], caller, tries)) {
                unlock(plan, i);
                return false;
            }
        reply = decide(caller, process, arc, pick, next);
        unlock(plan, plan.size());
        return true;
    }
    Reply look(u32 process) const {
        u64 word = processes[process].load();
        return {Reply::Seen, 0, content_of(word), process, 0, moves_of(word)};
    }
    u64 count() const { return counter.load(); }
    const Entry& entry(u64 number) const { return history[number]; }
    u32 local(u32 process) const { return content_of(processes[process].load()); }

  private:
    const System& system;
    std::vector<std::vector<u32>> plans;
    std::vector<std::atomic<u32>> locks;  // 0, or the number of the caller that holds it plus 1
    std::vector<std::atomic<u64>> processes, edges;
    std::vector<Entry> history;
    alignas(64) std::atomic<u64> counter{0};

    bool lock(u32 number, u32 caller, int& tries) {
        for (int round = 0; tries > 0; round++) {
            u32 free = 0;
            if (locks[number].compare_exchange_strong(free, caller + 1)) return true;
            tries--;
            for (int spin = 0; spin < 1 << std::min(round, 6); spin++) pause();
        }
        return false;
    }
    static void pause() {
#if defined(__x86_64__)
        __builtin_ia32_pause();
#else
        std::atomic_signal_fence(std::memory_order_seq_cst);
#endif
    }
    void unlock(const std::vector<u32>& plan, std::size_t held) {
        for (std::size_t i = 0; i < held; i++) locks[plan[i]].store(0);
    }
    // All locks of the process are held.
    Reply decide(u32 caller, u32 process, u32 arc, u64 pick, std::vector<u64>& next) {
        const Arc& taken = system.arcs(process)[arc];
        u64 own = processes[process].load();
        if (content_of(own) != taken.from) return {Reply::Away, process, arc, content_of(own), pick, counter.load()};
        next.clear();
        for (const Neighbour& n : system.neighbours[process]) {
            u64 pair = edges[n.edge].load();
            u32 state = next_state(system.structure(n.edge), content_of(pair), n.side, taken.to, pick);
            if (state == NO_STATE) return {Reply::Blocked, process, arc, n.process, pick, counter.load()};
            next.push_back(packed(moves_of(pair) + 1, state));
        }
        u64 number = counter.fetch_add(1);
        history[number] = {caller, process, arc, pick};
        processes[process].store(packed(moves_of(own) + 1, taken.to));
        for (std::size_t i = 0; i < next.size(); i++) edges[system.neighbours[process][i].edge].store(next[i]);
        return {Reply::Fired, process, arc, 0, pick, number};
    }
};

// The random words: a caller's begin at the seed plus its number.
struct Words {
    u64 state;
    Words(u64 seed, u64 caller) : state((seed % 65537 + caller) % 65537) {}
    u64 draw() { return state = (75 * state + 74) % 65537; }
};

// Caller c of n: wishes on the processes k with k mod n = c, one after another and again; who blocked a wish is looked at next.
inline std::vector<Reply> work(Hall& hall, const System& system, u32 callers, u32 caller, u32 room, u64 seed) {
    std::vector<Reply> replies;
    replies.reserve(room);
    std::vector<u8> locals;
    for (const Process& p : system.spec.processes) locals.push_back(p.start);
    std::vector<u64> next;
    Words words(seed, caller);
    for (u32 process = caller; replies.size() < room; process = process + callers < locals.size() ? process + callers : caller) {
        const std::vector<Arc>& arcs = system.arcs(process);
        u32 leaving = 0, arc = 0;
        for (const Arc& a : arcs) leaving += a.from == locals[process];
        u64 chosen = words.draw() % leaving, pick = words.draw();
        for (;; arc++)
            if (arcs[arc].from == locals[process] && chosen-- == 0) break;
        Reply reply;
        while (!hall.fire(caller, process, arc, pick, 64, next, reply)) std::this_thread::yield();
        replies.push_back(reply);
        if (reply.what == Reply::Fired) locals[process] = arcs[arc].to;
        if (reply.what == Reply::Blocked && replies.size() < room) replies.push_back(hall.look(reply.other));
    }
    return replies;
}

// All callers, each on a thread of its own but the first.
inline std::vector<std::vector<Reply>> crew(Hall& hall, const System& system, u32 callers, u32 room, u64 seed) {
    std::vector<std::vector<Reply>> lists(callers);
    std::vector<std::jthread> threads;
    auto one = [&](u32 caller) { lists[caller] = work(hall, system, callers, caller, room, seed); };
    for (u32 caller = 1; caller < callers; caller++) threads.emplace_back(one, caller);
    one(0);
    threads.clear();
    return lists;
}

// The text of a report: the journal, and each caller's replies.
class ReportText {
  public:
    std::string text;

    ReportText(const Hall& hall, const std::vector<std::vector<Reply>>& lists) {
        text.reserve(48 * (hall.count() + lists.size() * lists[0].size()) + 64);
        text += "journal 1\n";
        for (u64 n = 0; n < hall.count(); n++) {
            const Entry& e = hall.entry(n);
            line("entry", {n, e.caller, e.process, e.arc, e.pick});
        }
        text += "done\nreport 1\n";
        for (std::size_t c = 0; c < lists.size(); c++) {
            line("caller", {c});
            for (const Reply& reply : lists[c]) tell(reply);
        }
        text += "end\n";
    }

  private:
    void tell(const Reply& r) {
        switch (r.what) {
            case Reply::Fired: return line("fired", {r.process, r.arc, r.pick, r.at});
            case Reply::Away: return line("away", {r.process, r.arc, r.pick, r.other, r.at});
            case Reply::Blocked: return line("blocked", {r.process, r.arc, r.pick, r.other, r.at});
            case Reply::Seen: return line("seen", {r.other, r.at, r.arc});
        }
    }
    void line(Text what, std::initializer_list<u64> numbers) {
        char buffer[160];
        char* at = buffer + what.copy(buffer, what.size());
        for (u64 n : numbers) {
            *at++ = ' ';
            at = std::to_chars(at, buffer + sizeof buffer, n).ptr;
        }
        *at++ = '\n';
        text.append(buffer, at);
    }
};

}  // namespace pairs
