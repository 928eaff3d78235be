#!/usr/bin/env python3
"""ratios.py [--runs N] [--program PATH] [--only WORD]: the proved program beside the C++ of bench/cpp, which does the same by plain means.
Builds the C++, makes the inputs, runs both in turn, N times each (5 if nothing is said), and prints for each the least seconds, of processor,
or on the clock where callers have threads of their own, and the most memory. First the two answers are compared: they are equal, but
structures of `synth` may differ, and each program's `prove` must accept the other's. A run has a minute and the C++ 2 GB; who does not end
within that has no figure, and who takes more than ten seconds runs twice. --only: the rows with this word in their name. A command that the
program does not have is left out."""
import argparse
import filecmp
import os
import subprocess
import sys
import tempfile

HERE = os.path.dirname(os.path.abspath(__file__))
TOP = os.path.dirname(HERE)
CPP = os.path.join(HERE, "cpp", "out")
MUTEX = os.path.join(TOP, "examples", "mutex_first.solution")
SECONDS, MEMORY, SLOW = 60, 2048, 10


class Run:
    """One run: its status, -1 where it was stopped or broke off, its seconds of processor and on the clock, and its MB."""

    def __init__(self, command, out=os.devnull, memory=0):
        measure = [os.path.join(CPP, "measure"), str(SECONDS), str(memory), out, *command]
        words = subprocess.run(measure, stdout=subprocess.PIPE, check=True).stdout.split()
        self.status = int(words[0])
        self.processor, self.wall, self.memory = (float(word) for word in words[1:])


def proved(program, command, words):
    return [program, command, *words]


def plain(command, words):
    if command in ("run", "big"):
        return [os.path.join(CPP, "run"), command, *words]
    return [os.path.join(CPP, command), *words]


def agree(program, command, words, folder):
    """How the two answers differ, if they do, and which of the two ended."""
    mine, other = (os.path.join(folder, name) for name in ("proved.out", "plain.out"))
    first, second = Run(proved(program, command, words), mine), Run(plain(command, words), other, MEMORY)
    ended = first.status >= 0, second.status >= 0
    if first.status == 1 or not all(ended):
        return None, first.status, ended
    differs = first.status != second.status
    if command == "synth" and first.status == 0 and not differs:
        checks = [proved(program, "prove", [words[0], other]), plain("prove", [words[0], mine])]
        differs = any(Run(check).status != 0 for check in checks)
    elif command != "run" or words[2] == "1":
        differs = differs or not filecmp.cmp(mine, other, shallow=False)
    return "the answers differ" if differs else None, first.status, ended


def figures(runs, on_clock):
    if not runs:
        return None, None
    return min(run.wall if on_clock else run.processor for run in runs), max(run.memory for run in runs)


def row(options, name, command, words, folder):
    differ, status, ended = agree(options.program, command, words, folder)
    if status == 1:
        return f"| `{command}` | {name} | the program has no such command | | | | |"
    runs = [], []
    for count in range(options.runs):
        if ended[0] and (count < 2 or runs[0][0].processor < SLOW):
            runs[0].append(Run(proved(options.program, command, words)))
        if ended[1] and (count < 2 or runs[1][0].processor < SLOW):
            runs[1].append(Run(plain(command, words), memory=MEMORY))
    on_clock = command == "run"
    (seconds, memory), (other_seconds, other_memory) = (figures(of, on_clock) for of in runs)
    ratio = f"{seconds / other_seconds:.2f}" if all(ended) and other_seconds else "-"
    cells = [show(seconds, ".4f"), show(other_seconds, ".4f"), ratio, show(memory, ".0f"), show(other_memory, ".0f")]
    return f"| `{command}` | {name}{'; ' + differ if differ else ''} | {' | '.join(cells)} |"


def show(figure, form):
    return "-" if figure is None else format(figure, form)


def made(folder, name, script, *words):
    """The path of a text that a maker of bench/ prints."""
    path = os.path.join(folder, name)
    with open(path, "wb") as out:
        subprocess.run([sys.executable, os.path.join(HERE, script), *words], stdout=out, check=True)
    return path


def cycle(folder):
    paths = [os.path.join(folder, name) for name in ("cycle.pairs", "cycle.solution")]
    subprocess.run([sys.executable, os.path.join(HERE, "make_cycle.py"), *paths], check=True)
    return paths


def grid(folder, width, callers):
    return [made(folder, "grid", "make_grid.py", width), MUTEX, callers, "65536", "7"]


def journal(folder):
    subprocess.run([sys.executable, os.path.join(HERE, "make_journal.py"), folder], check=True)
    return [os.path.join(folder, "ring.pairs"), MUTEX, os.path.join(folder, "ring.journal")]


def cases():
    """Name, command, and how to make its words in a folder."""
    def from_maker(*words):
        return lambda folder: [made(folder, "spec", *words)]

    for kind in ("free", "exclusions", "responses", "waiting"):
        yield f"`{kind}`", "synth", from_maker("make_kind.py", kind)
    for count in ("6", "7", "8", "16", "32"):
        yield f"`returns`, {count} local states", "synth", from_maker("make_kind.py", "returns", "1", count)
    yield "a reader with 8 places and a writer", "synth", from_maker("make_readers.py")
    yield "the same, a way stays to each place", "synth", from_maker("make_readers.py", "ways")
    yield "16 kinds over 32 local states", "synth", from_maker("make_plain.py")
    yield "63 MB, 1,400,016 states", "prove", cycle
    for what in ("graph", "clauses"):
        yield f"a specification of 1 MB, `{what}`", "prove", lambda folder, what=what: [made(folder, "spec", "make_spec.py", what), os.devnull]
    yield "4,194,304 entries", "replay", journal
    for width, callers in ("8", "1"), ("8", "2"), ("32", "1"), ("32", "2"), ("32", "4"):
        name = f"grid of {width} by {width}, room 65,536, callers: {callers}"
        yield name, "run", lambda folder, width=width, callers=callers: grid(folder, width, callers)
    for words in ("1024 65536 1", "1000 65536 1"):
        yield words, "big", lambda folder, words=words: words.split()


def main():
    parser = argparse.ArgumentParser(description=__doc__)
    parser.add_argument("--runs", type=int, default=5)
    parser.add_argument("--only", default="")
    parser.add_argument("--program", default=os.path.join(TOP, "crates", "skeleton_run", "out", "skeleton_run"))
    options = parser.parse_args()
    subprocess.run(["make", "-s", "-C", os.path.join(HERE, "cpp")], check=True)
    if not os.access(options.program, os.X_OK):
        sys.exit("build the program first: ./skeleton_run")
    print("| command | input | proved, s | C++, s | ratio | proved, MB | C++, MB |\n|---|---|---|---|---|---|---|")
    for name, command, words in cases():
        if options.only in f"{command} {name}":
            with tempfile.TemporaryDirectory() as folder:
                print(row(options, name, command, words(folder), folder), flush=True)


main()
