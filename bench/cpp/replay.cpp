// replay SPEC SOL JOURNAL: fires a journal, and tells what the run leaves, or the first entry that does not move.
#include "system.hpp"

using namespace pairs;

namespace {

class Replay {
  public:
    explicit Replay(const System& system) : system(system), states(system.start), moves(system.spec.processes.size()) {
        for (const Process& p : system.spec.processes) locals.push_back(p.start);
    }
    // Reads the journal, and fires its entries until one does not move.
    void read(Text text) {
        Strict in(text);
        in.head("journal 1");
        for (;; count++) {
            in.must_go_on();
            if (in.is_line("done")) return;
            u64 number, caller, process, arc, pick;
            bool fine = in.word("entry") && in.number(number) && in.number(caller) && in.number(process) && in.number(arc) && in.number(pick);
            in.check(fine && in.over() && number == count, "BadLine");
            in.check(caller <= 63 && process < moves.size() && arc < system.arcs(u32(process)).size(), "UnknownName");
            if (stuck.empty()) fire(u32(process), system.arcs(u32(process))[arc], pick);
        }
    }
    [[noreturn]] void tell() const {
        if (!stuck.empty()) finish(4, stuck);
        const Spec& spec = system.spec;
        std::string text = "run " + std::to_string(count) + "\n";
        for (std::size_t k = 0; k < moves.size(); k++) {
            const Process& p = spec.processes[k];
            text += "process " + p.name + " " + spec.roles[p.role].locals[locals[k]] + " " + std::to_string(moves[k]) + "\n";
        }
        for (std::size_t e = 0; e < states.size(); e++) {
            auto [a, b] = spec.edges[e].ends;
            text += "edge " + spec.processes[a].name + " " + spec.processes[b].name + " " + std::to_string(states[e]) + "\n";
        }
        finish(0, text + "done\n");
    }

  private:
    const System& system;
    std::vector<u8> locals;
    std::vector<u32> states;
    std::vector<u64> moves;
    std::vector<u32> next;  // the states to which the pairs of a firing come
    u64 count = 0;
    std::string stuck;

    void fire(u32 process, Arc arc, u64 pick) {
        const Spec& spec = system.spec;
        auto stop = [&](const std::string& why) { stuck = "not-a-run " + std::to_string(count) + why + "\n"; };
        if (locals[process] != arc.from) return stop(" away " + spec.roles[spec.processes[process].role].locals[locals[process]]);
        next.clear();
        for (const Neighbour& n : system.neighbours[process]) {
            next.push_back(next_state(system.structure(n.edge), states[n.edge], n.side, arc.to, pick));
            if (next.back() == NO_STATE) return stop(" blocked " + spec.processes[n.process].name);
        }
        for (std::size_t i = 0; i < next.size(); i++) states[system.neighbours[process][i].edge] = next[i];
        locals[process] = arc.to;
        moves[process]++;
    }
};

}  // namespace

int main(int count, char** words) {
    if (count != 4) finish(1, "usage: replay SPEC SOL JOURNAL\n");
    Spec spec = read_spec(words[1]);
    std::vector<Structure> solution = read_solution(words[2], spec);
    System system(spec, solution);
    Replay replay(system);
    File journal = read_file(words[3], "journal", 536'870'912);
    try {
        replay.read(journal);
    } catch (Refused why) {
        refuse("journal", why);
    }
    must_solve(spec, solution);
    replay.tell();
}
