#!/usr/bin/env bash
# Times a journal of 4,194,304 entries over a ring of 1,024 philosophers: writing its text, with reading it, with replaying it too; and the
# last over a graph of 32 neighbours each.
cd "$(dirname "$0")" || exit 1
program=$(./build.sh journal_bench conjunctive_compose ctl_form ctl_text firing_journal interconnection pair_structure skeleton_extract strict_text) || exit 1
for words in "4194304 text" "4194304 read" "4194304 replay" "4194304 replay wide"; do
  # shellcheck disable=SC2086
  python3 measure.py --runs 5 "$program" $words
done
