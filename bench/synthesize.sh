#!/usr/bin/env bash
# Times the synthesis of structures for eight kinds, and of the stages before the unravelling. `mutex`: two philosophers of whom each that
# waits comes to eat. `readers`: a reader with 8 reading places and a writer that is served; `places`: and each place stays in reach. The
# others are those of tableau.sh.
cd "$(dirname "$0")" || exit 1
program=$(./build.sh synthesize_bench unravel deletion_rules tableau_graph closure_sets ctl_form pair_structure) || exit 1
for kind in mutex readers places free exclusions responses waiting returns; do
  "$program" "$kind" tableau
  for stage in tableau prune whole; do
    python3 measure.py --runs "${RUNS:-5}" "$program" "$kind" "$stage"
  done
  "$program" "$kind"
done
