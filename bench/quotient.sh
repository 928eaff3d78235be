#!/usr/bin/env bash
# Times `shrink`, and the making of the structure alone. `random`: 100,000 states with three random moves each over 16 labels. `up` and
# `down`: a way of 20,000 states with a special end, of which each round of refining splits off one more state. `cycle`: 100,000 states in a
# cycle whose sides follow a pattern; `alike`: one whose sides take turns, which shrinks to four states.
cd "$(dirname "$0")" || exit 1
program=$(./build.sh quotient_bench pair_quotient ctl_form pair_structure) || exit 1
for structure in random up down cycle alike; do
  "$program" "$structure"
  for phase in make shrink; do
    python3 measure.py --runs "${RUNS:-5}" "$program" "$structure" "$phase"
  done
done
