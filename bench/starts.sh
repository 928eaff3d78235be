#!/usr/bin/env bash
# Times `synth` of the built program on kinds of `make_kind.py` whose roles have one start, and four: sixteen pairs of starts.
cd "$(dirname "$0")/.." || exit 1
program=crates/skeleton_run/out/skeleton_run
[ -x "$program" ] || { echo "build the program first: ./skeleton_run" >&2; exit 1; }
texts=$(mktemp -d)
trap 'rm -r "$texts"' EXIT
for kind in free responses waiting; do
  for starts in 1 4; do
    python3 bench/make_kind.py "$kind" "$starts" > "$texts/$kind.$starts"
    python3 bench/measure.py --runs 5 "$program" synth "$texts/$kind.$starts"
  done
done
