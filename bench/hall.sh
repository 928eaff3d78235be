#!/usr/bin/env bash
# Times callers' threads that fire a grid of philosophers, beside a C++ with the same steps, in turn and five times each: one caller on a grid
# of 8 by 8, then one, two and four callers on one of 32 by 32. Prints the least nanoseconds a wish, all callers together.
cd "$(dirname "$0")" || exit 1
program=$(./build.sh hall_bench conjunctive_compose firing_hall firing_journal firing_words interconnection pair_structure skeleton_extract strict_text text_cause) || exit 1
beside=${TMPDIR:-/tmp}/hall_cpp
g++ -std=c++20 -O2 -pthread -o "$beside" hall_bench.cpp || exit 1
least() {
  for _ in 1 2 3 4 5; do "$@"; done | awk 'NR == 1 || $4 / $2 < least { least = $4 / $2 } END { printf "%.0f", least * 1000 }'
}
for words in "8 1 30000" "32 1 30000" "32 2 30000" "32 4 30000"; do
  # shellcheck disable=SC2086
  echo "$words: proved $(least "$program" $words) ns, C++ $(least "$beside" $words) ns a wish"
done
