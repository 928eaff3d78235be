#!/usr/bin/env bash
# Times `synth` of the built program: mutual exclusion, 16 kinds over roles of 32 local states with 8 clauses each, and the five kinds of
# `make_kind.py`.
cd "$(dirname "$0")/.." || exit 1
program=crates/skeleton_run/out/skeleton_run
[ -x "$program" ] || { echo "build the program first: ./skeleton_run" >&2; exit 1; }
texts=$(mktemp -d)
trap 'rm -r "$texts"' EXIT
cp examples/mutex.pairs "$texts/mutex"
python3 bench/make_plain.py > "$texts/plain"
for kind in free exclusions responses waiting returns; do
  python3 bench/make_kind.py "$kind" > "$texts/$kind"
done
for text in mutex plain free exclusions responses waiting returns; do
  python3 bench/measure.py --runs 5 "$program" synth "$texts/$text"
done
