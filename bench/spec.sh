#!/usr/bin/env bash
# Times reading whole specifications of 1,048,576 bytes by the built program: `prove` reads them, and then stops at a solution that is empty.
cd "$(dirname "$0")/.." || exit 1
program=crates/skeleton_run/out/skeleton_run
[ -x "$program" ] || { echo "build the program first: ./skeleton_run" >&2; exit 1; }
spec=$(mktemp)
trap 'rm -f "$spec"' EXIT
for what in graph clauses; do
  python3 bench/make_spec.py "$what" > "$spec"
  echo "$what"
  python3 bench/measure.py "$program" prove "$spec" /dev/null
done
