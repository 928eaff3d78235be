"""What the tools share: reading and writing the texts of specifications (`spec_texts.py`) and solutions, and calling
the program.

The readers take the texts that the program takes. They are no judges: `synth` and `prove` say what is wrong with one.
"""
import os
import subprocess
import sys
import tempfile
from dataclasses import dataclass, field, replace

from spec_texts import Kind, Role, Spec, read_spec, read_text, spec_text  # noqa: F401

TOP = os.path.dirname(os.path.dirname(os.path.abspath(__file__)))
OTHER = {"a": "b", "b": "a"}


@dataclass
class Structure:
    """States as (local of a, local of b), and moves as (from, side, to)."""
    states: list = field(default_factory=list)
    moves: list = field(default_factory=list)

    def __post_init__(self):
        self.index = None

    def moves_of(self, state, side="ab"):
        """The moves of a side (or of both) that leave a state."""
        if self.index is None:
            self.index = {}
            for move in self.moves:
                self.index.setdefault(move[0], []).append(move)
        return [move for move in self.index.get(state, []) if move[1] in side]

    def local(self, state, side):
        """The local state of a side."""
        return self.states[state]["ab".index(side)]

    def ordinals(self):
        """For each state the number of states below it with its label."""
        seen = {}
        return [(seen.update({label: seen.get(label, -1) + 1}), seen[label])[1] for label in self.states]

    def commands(self, side, arc):
        """The commands of an arc of a side, as (local state of the other, value tested, value set), sorted by names."""
        ordinals = self.ordinals()
        found = {(self.local(s, OTHER[side]), ordinals[s], ordinals[t]) for s, moved, t in self.moves
                 if moved == side and (self.local(s, side), self.local(t, side)) == tuple(arc[:2])}
        return sorted(found)


def read_solution(path):
    """Reads a solution: structures by the names of their kinds."""
    found, now = {}, None
    for number, line in enumerate(read_text(path).splitlines(), 1):
        head, *rest = line.split()
        if number == 1 and line != "solution 1":
            raise SystemExit(f"{path} is no solution")
        if head == "kind":
            now = found[rest[0]] = Structure()
        elif head == "state":
            now.states.append(tuple(rest))
        elif head == "move":
            now.moves.append((int(rest[0]), rest[1], int(rest[2])))
    return found


def solution_text(solution):
    """The text of a solution."""
    lines = ["solution 1"]
    for name, structure in solution.items():
        lines += [f"kind {name}", *(f"state {p} {q}" for p, q in structure.states)]
        lines += [f"move {s} {side} {t}" for s, side, t in structure.moves] + ["end"]
    return "\n".join(lines + ["done", ""])


def alone(spec, kind, clauses, arcs):
    """A kind apart from its network, with these clauses, and of its free arcs these, as (side, from, to). Each side has
    a role of its own, so that what is free for one side need not be so for the other."""
    roles = {}
    for side in "ab":
        role = spec.role_of(kind, side)
        free = [(p, q, (side, p, q) in arcs) for p, q, _ in role.arcs]
        roles[side] = replace(role, name=side, arcs=free)
    return Spec(roles, {kind: Kind(kind, {"a": "a", "b": "b"}, list(clauses))})


def free_arcs(spec, kind):
    """The free arcs of a kind, as (side, from, to)."""
    return [(side, p, q) for side in "ab" for p, q, free in spec.role_of(kind, side).arcs if free]


def program():
    """The program: what SKELETON_RUN names, else `skeleton_run` at the top."""
    return os.environ.get("SKELETON_RUN") or os.path.join(TOP, "skeleton_run")


def call(command, *texts):
    """Runs a command of the program over texts; gives its status and what it wrote."""
    with tempfile.TemporaryDirectory() as folder:
        names = []
        for number, text in enumerate(texts):
            names.append(os.path.join(folder, f"text{number}"))
            with open(names[-1], "w") as file:
                file.write(text)
        done = subprocess.run([program(), command, *names], stdout=subprocess.PIPE, text=True)
    return done.returncode, done.stdout


def progress(line):
    """Writes a line about how far the work is."""
    print(line, file=sys.stderr, flush=True)
