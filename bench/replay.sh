#!/usr/bin/env bash
# Times `replay` of the built program on a journal of 4,194,304 entries, 115 MB, over a ring of 1,024 philosophers.
cd "$(dirname "$0")/.." || exit 1
program=crates/skeleton_run/out/skeleton_run
[ -x "$program" ] || { echo "build the program first: ./skeleton_run" >&2; exit 1; }
texts=$(mktemp -d)
trap 'rm -r "$texts"' EXIT
python3 bench/make_journal.py "$texts"
python3 bench/measure.py --runs 5 "$program" replay "$texts/ring.pairs" examples/mutex_first.solution "$texts/ring.journal"
