#!/usr/bin/env bash
# Times the commands of a structure of a million states, half of them with one label and half with another, and their text: with the text,
# without it, and the making of the structure alone.
cd "$(dirname "$0")" || exit 1
program=$(./build.sh extract_bench skeleton_extract pair_structure) || exit 1
for words in "1000000" "1000000 plain" "1000000 no commands"; do
  # shellcheck disable=SC2086
  python3 measure.py --runs 5 "$program" $words
done
