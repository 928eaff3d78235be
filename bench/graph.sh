#!/usr/bin/env bash
# Times the making of a network of 1,024 processes with 32 neighbours each, 16,384 edges: once, and a hundred and one times, so that a
# hundredth of the difference is one making without the start of the program.
cd "$(dirname "$0")" || exit 1
program=$(./build.sh graph_bench interconnection pair_structure) || exit 1
for times in 1 101; do
  python3 measure.py --runs 5 "$program" "$times"
done
