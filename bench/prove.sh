#!/usr/bin/env bash
# Times `prove` of the built program on a solution of 63 MB with 1,400,016 states.
cd "$(dirname "$0")/.." || exit 1
program=crates/skeleton_run/out/skeleton_run
[ -x "$program" ] || { echo "build the program first: ./skeleton_run" >&2; exit 1; }
texts=$(mktemp -d)
trap 'rm -r "$texts"' EXIT
python3 bench/make_cycle.py "$texts/spec" "$texts/solution"
stat -c '%s bytes' "$texts/solution"
python3 bench/measure.py --runs 5 "$program" prove "$texts/spec" "$texts/solution"
