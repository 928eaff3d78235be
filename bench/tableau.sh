#!/usr/bin/env bash
# Times the building of five tableaux over two equal roles whose local states are passed in a ring. `free`: 32 local states, all arcs but one
# free, one exclusion. `exclusions`: 31 exclusion clauses. `responses`: 16 local states, each answered by the next. `waiting`: 30 local
# states that are served, an exclusion, and two free arcs. `returns`: 6 local states to each of which a way stays; of these also the part of
# the tableau with the rows of one side, for 6, 8, 16 and 32 local states.
cd "$(dirname "$0")" || exit 1
program=$(./build.sh tableau_bench tableau_graph closure_sets ctl_form pair_structure) || exit 1
for kind in free exclusions responses waiting returns; do
  "$program" "$kind"
  python3 measure.py --runs 5 "$program" "$kind"
done
for kind in returns returns8 returns16 returns32; do
  "$program" "$kind" part
  python3 measure.py --runs 5 "$program" "$kind" part
done
