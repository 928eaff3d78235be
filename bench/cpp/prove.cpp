// prove SPEC SOL: whether the solution solves the specification, or the first kind that it fails.
#include "solution.hpp"

int main(int count, char** words) {
    if (count != 3) pairs::finish(1, "usage: prove SPEC SOL\n");
    pairs::Spec spec = pairs::read_spec(words[1]);
    std::vector<pairs::Structure> solution = pairs::read_solution(words[2], spec);
    pairs::must_solve(spec, solution);
    pairs::finish(0, "solves\n");
}
