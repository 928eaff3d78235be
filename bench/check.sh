#!/usr/bin/env bash
# Times `check` of the built program on the three cases of `make_certificate.py`.
cd "$(dirname "$0")/.." || exit 1
program=crates/skeleton_run/out/skeleton_run
[ -x "$program" ] || { echo "build the program first: ./skeleton_run" >&2; exit 1; }
texts=$(mktemp -d)
trap 'rm -r "$texts"' EXIT
for case in turns ring wide; do
  python3 bench/make_certificate.py "$case" "$texts"
  python3 bench/measure.py --runs 5 "$program" check "$texts/$case.pairs" "$texts/$case.solution" "$texts/$case.certificate"
done
