// The same as hall_bench.txt in C++, with the same steps: SIDE CALLERS WISHES.
#include <chrono>
#include <cstdio>
#include "cpp/hall.hpp"

using namespace pairs;

namespace {

const char SPEC[] =
    "pairs 1\nrole phil\nlocal N\nlocal T\nlocal C\nstart N\narc N T\narc T C\narc C N\nend\nkind k phil phil\nend\ndone\n";
const char SOLUTION[] =
    "solution 1\nkind k\nstate N N\nstate T N\nstate N T\nstate C N\nstate T T\nstate T T\nstate N C\nstate C T\nstate T C\n"
    "move 0 a 1\nmove 0 b 2\nmove 1 a 3\nmove 1 b 4\nmove 2 a 5\nmove 2 b 6\nmove 3 a 0\nmove 3 b 7\nmove 4 a 7\nmove 5 b 8\n"
    "move 6 a 8\nmove 6 b 0\nmove 7 a 2\nmove 8 b 1\nend\ndone\n";

// One wish of each of the caller's processes in turn, of the arc that leaves the local state that a look shows.
void work(Hall& hall, u32 processes, u32 callers, u32 caller, u32 wishes, std::vector<Reply>& replies) {
    std::vector<u64> next;
    u32 process = caller;
    for (u32 n = 0; n < wishes; n++) {
        Reply reply = hall.look(process);
        replies.push_back(reply);
        u32 arc = reply.arc;
        while (!hall.fire(caller, process, arc, n, 64, next, reply)) {}
        replies.push_back(reply);
        process = process + callers < processes ? process + callers : caller;
    }
}

}  // namespace

int main(int count, char** words) {
    if (count != 4) return 1;
    u32 side = u32(std::stoul(words[1])), callers = u32(std::stoul(words[2])), wishes = u32(std::stoul(words[3]));
    Spec spec = SpecReader().read(SPEC);
    for (u32 k = 0; k < side * side; k++) spec.processes.push_back({"p" + std::to_string(k), 0, 0});
    for (u32 row = 0; row < side; row++)
        for (u32 column = 0; column < side; column++) {
            u32 a = row * side + column;
            if (column + 1 < side) spec.edges.push_back({{a, a + 1}, 0});
            if (row + 1 < side) spec.edges.push_back({{a, a + side}, 0});
        }
    std::vector<Structure> solution = structures_of(SOLUTION, spec);
    System system(spec, solution);
    Hall hall(system, u64(callers) * wishes);
    std::vector<std::vector<Reply>> lists(callers);
    for (auto& list : lists) list.reserve(2 * wishes);
    auto start = std::chrono::steady_clock::now();
    {
        std::vector<std::jthread> threads;
        for (u32 c = 0; c < callers; c++) threads.emplace_back([&, c] { work(hall, side * side, callers, c, wishes, lists[c]); });
    }
    auto micros = std::chrono::duration_cast<std::chrono::microseconds>(std::chrono::steady_clock::now() - start).count();
    std::printf("%u %llu %llu %lld\n", callers, (unsigned long long)callers * wishes, (unsigned long long)hall.count(), (long long)micros);
}
