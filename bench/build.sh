#!/usr/bin/env bash
# Proves and builds a program of bench/ and prints where it stands: build.sh NAME CRATE.., for NAME.txt over these crates of the repository,
# which must name those below them too; where NAME_answers.txt is there it has the answers for the proof of its function `system`, and behind
# each line `-- file PATH` those of another file of its proofs. It is built outside the repository, since a program's source may stand only
# in a crate of the gate.
top=$(cd "$(dirname "$0")/.." && pwd) || exit 1
name=$1
shift
work=${TMPDIR:-/tmp}/$name
crate=$work/crates/$name
mkdir -p "$crate/src" && git init -q "$work" || exit 1
: > "$work/crates.txt"
for used in "$@"; do
  tar c --exclude=out -C "$top" "crates/$used" | tar x -C "$work" || exit 1
  grep "^$used:" "$top/crates.txt" >> "$work/crates.txt"
done
echo "$name: $*" >> "$work/crates.txt"
cp "$top/bench/$name.txt" "$crate/src/main.rt"
answers=$top/bench/${name}_answers.txt
if [ -f "$answers" ]; then
  awk -v to="$crate/proofs/" -v file=system/Answers.antt '
    /^-- file / { file = $3; next }
    { path = to file; folder = path; sub("/[^/]*$", "", folder) }
    !(path in made) { made[path] = 1; system("mkdir -p " folder); printf "" > path }
    { print > path }' "$answers" || exit 1
fi
rm -f "$crate/out/$name"
(cd "$crate" && rt run) > "$work/log" 2>&1
[ -x "$crate/out/$name" ] || { tail -n 20 "$work/log" >&2; exit 1; }
echo "$crate/out/$name"
