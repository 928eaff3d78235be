// run SPEC SOL CALLERS ROOM SEED: fires the system from callers' threads and writes the report.
// big N ROUNDS SEED: a large system of philosophers, one caller, and a summary.
#include "hall.hpp"

using namespace pairs;

namespace {

const char BIG_SPEC[] =
    "pairs 1\nrole phil\nlocal N\nlocal T\nlocal C\nstart N\narc N T free\narc T C\narc C N free\nend\n"
    "kind first phil phil\nend\nkind last phil phil\nend\ndone\n";
// Where both try, in `first` the one that tried first goes, in `last` the newcomer.
const char STATES[] = "state N N\nstate T N\nstate N T\nstate C N\nstate T T\nstate T T\nstate N C\nstate C T\nstate T C\n";
const char MOVES[] = "move 0 a 1\nmove 0 b 2\nmove 1 a 3\nmove 1 b 4\nmove 2 a 5\nmove 2 b 6\nmove 3 a 0\nmove 3 b 7\n";
const char FIRST_GOES[] = "move 4 a 7\nmove 5 b 8\n";
const char LAST_GOES[] = "move 4 b 8\nmove 5 a 7\n";
const char REST[] = "move 6 a 8\nmove 6 b 0\nmove 7 a 2\nmove 8 b 1\nend\n";

[[noreturn]] void usage() { finish(1, "usage:\n  run SPEC SOL CALLERS ROOM SEED\n  big N ROUNDS SEED\n"); }

u64 number(const char* word) {
    u64 n = 0;
    Text text(word);
    auto [end, error] = std::from_chars(text.begin(), text.end(), n);
    if (error != std::errc() || end != text.end() || (text[0] == '0' && text.size() > 1)) usage();
    return n;
}

[[noreturn]] void run(char** words) {
    u64 callers = number(words[2]), room = number(words[3]), seed = number(words[4]);
    Spec spec = read_spec(words[0]);
    std::vector<Structure> solution = read_solution(words[1], spec);
    must_solve(spec, solution);
    if (callers == 0 || callers > 64 || callers > spec.processes.size() || room == 0 || room > 65536) finish(7, "out of limits\n");
    System system(spec, solution);
    Hall hall(system, callers * room);
    auto lists = crew(hall, system, u32(callers), u32(room), seed);
    finish(0, ReportText(hall, lists).text);
}

// The edges of a grid, row by row, where n is a square, and else of a ring; an even word makes a pair of kind `first`.
void add_edges(Spec& spec, u32 n, u64 seed) {
    Words words(seed, 0);
    auto add = [&](u32 p, u32 q) { spec.edges.push_back({{p, q}, u8(words.draw() % 2)}); };
    u32 width = 1;
    while (width * width < n) width++;
    if (width * width == n) {
        for (u32 i = 0; i < n; i++) {
            if (i % width < width - 1) add(i, i + 1);
            if (i + width < n) add(i, i + width);
        }
    } else {
        for (u32 i = 0; i + 1 < n; i++) add(i, i + 1);
        add(0, n - 1);
    }
}

[[noreturn]] void big(char** words) {
    u64 n = number(words[0]), rounds = number(words[1]), seed = number(words[2]);
    if (n < 3 || n > 1024 || rounds == 0 || rounds > 65536) finish(7, "out of limits\n");
    Spec spec = SpecReader().read(BIG_SPEC);
    for (u64 k = 0; k < n; k++) spec.processes.push_back({"p" + std::to_string(k), 0, 0});
    add_edges(spec, u32(n), seed);
    std::string text = "solution 1\n";
    text += std::string("kind first\n") + STATES + MOVES + FIRST_GOES + REST;
    text += std::string("kind last\n") + STATES + MOVES + LAST_GOES + REST;
    std::vector<Structure> solution = structures_of(text + "done\n", spec);
    System system(spec, solution);
    Hall hall(system, rounds);
    std::vector<Reply> replies = work(hall, system, 1, 0, u32(rounds), seed);
    u64 told[4] = {}, locals[3] = {};
    for (const Reply& reply : replies) told[reply.what]++;
    for (u32 k = 0; k < n; k++) locals[hall.local(k)]++;
    text = "big " + std::to_string(n) + " " + std::to_string(rounds) + " " + std::to_string(seed) + "\n";
    auto line = [&](const char* what, u64 count) { text += what + std::to_string(count) + "\n"; };
    line("fired ", told[Reply::Fired]), line("blocked ", told[Reply::Blocked]), line("seen ", told[Reply::Seen]);
    line("local N ", locals[0]), line("local T ", locals[1]), line("local C ", locals[2]);
    finish(0, text + "done\n");
}

}  // namespace

int main(int count, char** words) {
    if (count == 7 && Text(words[1]) == "run") run(words + 2);
    if (count == 5 && Text(words[1]) == "big") big(words + 2);
    usage();
}
