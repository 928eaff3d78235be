#!/usr/bin/env bash
# Times the labelling of truth on two large structures: a cycle of 1,500,000 states numbered at random under nested untils, and a broad
# structure of 1,400,832 states under eight nested clauses. `make` is the making alone, `label` making and labelling.
cd "$(dirname "$0")" || exit 1
program=$(./build.sh truth_bench ctl_form pair_structure) || exit 1
for structure in cycle broad; do
  for phase in make label; do
    python3 measure.py --runs 5 "$program" "$structure" "$phase"
  done
done
