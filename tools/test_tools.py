#!/usr/bin/env python3
"""Tests of the tools: each script on every example that it fits. The program is what SKELETON_RUN names, else
`skeleton_run` at the top, which is proved and built on first use. What needs `dot` or `spin` is left out where they are
not installed."""
import os
import re
import shutil
import subprocess
import sys
import tempfile
import unittest
from itertools import product

sys.dont_write_bytecode = True
from judge import read_certificate, verdict, whole_states  # noqa: E402
from pairs import TOP, Spec, alone, call, free_arcs, program, read_solution, read_spec  # noqa: E402
from pairs import read_text, solution_text, spec_text  # noqa: E402

EXAMPLES = os.path.join(TOP, "examples")
ROOM = tempfile.TemporaryDirectory()
WITHOUT = {"quiet", "right_of_way", "shaft_free"}  # examples without a structure
# Examples of which what `synth` gives waits somewhere.
WAITING = {"circle", "drinkers", "grid", "printer", "priority", "shaft_safe", "token"}


def tool(name, *words, status=0):
    """Runs a script, asks for its status, and gives what it wrote."""
    done = subprocess.run([sys.executable, "-B", os.path.join(TOP, "tools", name), *words], stdout=subprocess.PIPE,
                          stderr=subprocess.PIPE, text=True)
    assert done.returncode == status, f"{name} {words} ended with {done.returncode}: {done.stdout}{done.stderr}"
    return done.stdout


def example(name):
    """The path of an example."""
    return os.path.join(EXAMPLES, name)


def in_room(name, text):
    """A file of the test's own with a text; its path."""
    path = os.path.join(ROOM.name, name)
    with open(path, "w") as file:
        file.write(text)
    return path


def setUpModule():
    """Synthesizes every example once."""
    for name in sorted(file[:-6] for file in os.listdir(EXAMPLES) if file.endswith(".pairs")):
        status, text = call("synth", read_text(example(f"{name}.pairs")))
        assert status == (3 if name in WITHOUT else 0), f"synth {name} ends with {status}"
        if status == 0:
            SOLVED[name] = (example(f"{name}.pairs"), in_room(f"{name}.solution", text))


SOLVED = {}


class Texts(unittest.TestCase):
    def test_read_back(self):
        for spec, solution in SOLVED.values():
            self.assertEqual(solution_text(read_solution(solution)), read_text(solution))
            status, text = call("prove", spec_text(read_spec(spec)), read_text(solution))
            self.assertEqual((status, text), (0, "solves\n"))

    def test_help(self):
        for name in ("picture", "make_pictures", "why", "guarded", "promela", "certificate", "mend"):
            self.assertIn("usage", tool(name, "--help"))


class Pictures(unittest.TestCase):
    def test_counts(self):
        for spec, path in SOLVED.values():
            solution = read_solution(path)
            text = tool("picture", path)
            self.assertEqual(text.count("[label=<"), sum(len(m.states) for m in solution.values()))
            heads = text.count("style=solid") + text.count("style=dashed") + text.count("dir=both")
            self.assertEqual(heads, sum(len(m.moves) for m in solution.values()))
            self.assertEqual(tool("picture", "--network", spec).count(" -- "), len(read_spec(spec).edges))
        self.assertIn("mutex, 8 states for 8", tool("picture", "--merge", SOLVED["mutex"][1]))

    @unittest.skipUnless(shutil.which("dot"), "dot is not installed")
    def test_rendered(self):
        tool("make_pictures", "--into", ROOM.name)
        for name in ("mutex", "readers_and_writers", "ring", "board"):
            self.assertIn("</svg>", read_text(os.path.join(ROOM.name, f"{name}.svg")))


class Why(unittest.TestCase):
    def test_no_structure(self):
        for name, size in (("quiet", 2), ("right_of_way", 5), ("shaft_free", 5)):
            spec = read_spec(example(f"{name}.pairs"))
            kind = next(iter(spec.kinds))
            given = [line.strip() for line in tool("why", example(f"{name}.pairs")).splitlines()[1:]]
            self.assertEqual(len(given), size)
            for left_out in [None, *given]:
                kept = [line for line in given if line != left_out]
                clauses = [c for c in spec.kinds[kind].clauses if f"require {c}" in kept]
                arcs = [arc for arc in free_arcs(spec, kind) if "side {}: arc {} {} free".format(*arc) in kept]
                status, _ = call("synth", spec_text(alone(spec, kind, clauses, arcs)))
                self.assertEqual(status, 0 if left_out else 3)
        self.assertEqual(tool("why", example("mutex.pairs")), "each kind has a structure\n")

    def test_refused(self):
        for name, path in SOLVED.items():
            if name in ("mutex", "grid"):
                self.assertEqual(tool("why", *path), "it solves\n")
        text = tool("why", example("mutex.pairs"), example("mutex_last.solution"))
        self.assertIn("fails require AG (a.T -> AF a.C)", text)
        self.assertEqual(re.findall(r"state (\d+)", text), ["0", "1", "4", "8", "1"])
        both = read_spec(example("mutex.pairs"))
        both.roles["phil"].arcs = [(p, q, q == "T") for p, q, _ in both.roles["phil"].arcs]
        both.kinds["mutex"].clauses = ["AG !(a.T & b.T)"]
        text = tool("why", in_room("both.pairs", spec_text(both)), example("mutex_first.solution"))
        self.assertIn("b moves to state 4 (T T)", text)


class Guarded(unittest.TestCase):
    def test_as_skel(self):
        for spec_path, path in SOLVED.values():
            status, skel = call("skel", read_text(spec_path), read_text(path))
            self.assertEqual(status, 0)
            self.assertEqual(self.of_guarded(tool("guarded", spec_path, path)), self.of_skel(skel))

    @staticmethod
    def of_guarded(text):
        """The commands as a set of (kind, side, from, to, other, test, set)."""
        found = set()
        for line in text.splitlines():
            if at := re.match(r"  beside q, a \w+ on side ([ab]) of (\w+)", line):
                kind, side = at[2], "ba"["ab".index(at[1])]
            if at := re.match(r"    (\w+) -> (\w+)", line):
                arc = at.groups()
            if at := re.search(r"when q in \{?([\w, ]*?)\}?(?:, x = (\d+): x := (\d+))?$", line):
                found |= {(kind, side, *arc, q, int(at[2] or 0), int(at[3] or 0)) for q in at[1].split(", ")}
        return found

    @staticmethod
    def of_skel(text):
        """The same of what `skel` writes."""
        found = set()
        for head, *rest in map(str.split, text.splitlines()):
            if head == "kind":
                kind = rest[0]
            elif head == "side":
                side = rest[0]
            elif head == "arc":
                arc = rest
            elif head == "command":
                found.add((kind, side, *arc, rest[0], int(rest[1]), int(rest[2])))
        return found


class Promela(unittest.TestCase):
    def test_models(self):
        for pair in SOLVED.values():
            self.assertEqual(tool("promela", *pair).count("proctype"), len(read_spec(pair[0]).processes))

    @unittest.skipUnless(shutil.which("spin") and shutil.which("cc"), "spin is not installed")
    def test_state_counts(self):
        for name in ("mutex", "ring", "printer"):
            with tempfile.TemporaryDirectory() as folder:
                run = {"cwd": folder, "check": True, "stdout": subprocess.PIPE, "text": True}
                with open(os.path.join(folder, "m.pml"), "w") as file:
                    file.write(tool("promela", *SOLVED[name]))
                subprocess.run(["spin", "-a", "m.pml"], **run)
                subprocess.run(["cc", "-O1", "-w", "-DSAFETY", "-o", "pan", "pan.c"], **run)
                told = subprocess.run(["./pan", "-E", "-m1000000"], **run).stdout
                ends = subprocess.run(["./pan", "-m1000000"], **run).stdout
            states, stuck = whole_states(read_spec(SOLVED[name][0]), read_solution(SOLVED[name][1]))
            self.assertEqual(int(re.search(r"(\d+) states, stored", told)[1]), len(states), name)
            self.assertEqual("errors: 1" in ends, bool(stuck), name)


class Certificates(unittest.TestCase):
    def test_examples(self):
        for name, pair in SOLVED.items():
            if name in WAITING:
                self.assertIn("waits: star", tool("certificate", *pair, status=4))
            else:
                text = tool("certificate", *pair)
                self.assertEqual(verdict(read_spec(pair[0]), read_solution(pair[1]), text), "accepted", name)

    def three(self, edges, clauses):
        """Three philosophers with these edges and so many clauses."""
        spec = read_spec(example("mutex.pairs"))
        spec.processes["p2"] = "phil"
        spec.edges = [(*edge.split(), "mutex") for edge in edges]
        del spec.kinds["mutex"].clauses[clauses:]
        return spec

    @staticmethod
    def all_members(structure, stars):
        """A certificate with all star states, each star given by its sides."""
        lines = ["certificate 1"]
        for sides in stars:
            lines.append("star phil " + " ".join(f"mutex.{side}" for side in sides))
            every = product(range(len(structure.states)), repeat=len(sides))
            lines += ["member " + " ".join(map(str, s)) for s in every
                      if len({structure.local(t, side) for t, side in zip(s, sides)}) == 1] + ["end"]
        return "\n".join(lines + ["done", ""])

    def test_worked(self):
        first, last = (read_solution(example(f"mutex_{n}.solution")) for n in ("first", "last"))
        prior = {"mutex": read_solution(example("grid.solution"))["above"]}
        spec, plain = self.three(["p0 p1", "p1 p2", "p0 p2"], 3), self.three(["p0 p1", "p1 p2", "p0 p2"], 1)
        cycle = self.three(["p0 p1", "p1 p2", "p2 p0"], 1)
        text = self.all_members(first["mutex"], ["aa", "ab", "bb"])
        self.assertEqual([len(star[2]) for star in read_certificate(text)], [29, 29, 29])
        self.assertEqual(verdict(spec, first, text), "accepted")
        self.assertEqual(verdict(spec, first, text.replace("member 4 4\n", "", 1)), "not-closed 0 4 1")
        second = text.index("star phil mutex.a mutex.b")
        self.assertEqual(verdict(spec, first, text[:second] + "done\n"), "shape-missing p1")
        startless = text[:second] + text[second:].replace("member 0 0\n", "", 1)
        self.assertEqual(verdict(spec, first, startless), "start-missing 1")
        self.assertEqual(verdict(plain, last, self.all_members(last["mutex"], ["aa", "ab", "bb"])), "waits 0 9 0")
        self.assertEqual(verdict(cycle, prior, self.all_members(prior["mutex"], ["ab"])), "waits 0 7 0")
        self.assertEqual(whole_states(plain, last)[1], [])
        self.assertIn((("T",) * 3, (0,) * 3), whole_states(cycle, prior)[1])
        self.assertEqual(verdict(Spec(), {}, "certificate 1\ndone\n"), "accepted")

    def test_no_order_at_the_start(self):
        spec = read_spec(example("handshake.pairs"))
        spec.processes = {name: "wire" for name in ("one", "two", "three")}
        spec.edges = [("one", "two", "handshake"), ("two", "three", "handshake"), ("three", "one", "handshake")]
        path = in_room("cycle.pairs", spec_text(spec))
        self.assertIn("at the start", tool("certificate", path, SOLVED["handshake"][1], status=4))
        self.assertEqual(verdict(spec, read_solution(SOLVED["handshake"][1]), "certificate 1\ndone\n"), "no-peel")


class Sets(unittest.TestCase):
    """A text with sets of local states, whose atoms the program and the tools spell out alike."""
    LINES = ["pairs 2", "role phil", "local N", "local T", "local C", "start N", "set busy T C", "set rest N",
             "arc N T free", "arc T C", "arc C N free", "end", "kind mutex phil phil",
             "require AG !(a.busy & (b.C | !b.rest))", "end", "done", ""]

    def test_spelled_out(self):
        path = in_room("sets.pairs", "\n".join(self.LINES))
        self.assertEqual(call("migrate", read_text(path)), (0, spec_text(read_spec(path))))


class Starts(unittest.TestCase):
    """Lamps that may start off or on, and one process of them that begins switched on."""
    LINES = ["pairs 2", "role lamp", "local L", "local R", "start L", "start R", "arc L R", "arc R L", "end",
             "kind turns lamp lamp", "end", "process p0 lamp", "process p1 lamp R", "process p2 lamp",
             "edge p0 p1 turns", "edge p1 p2 turns", "done", ""]
    TURNS = ["solution 1", "kind turns", "state L L", "state L R", "state R L", "state R R", "move 0 b 1", "move 1 a 3",
             "move 2 a 0", "move 3 b 2", "end", "done", ""]

    def setUp(self):
        self.pair = in_room("starts.pairs", "\n".join(self.LINES)), in_room("starts.solution", "\n".join(self.TURNS))
        self.spec, self.solution = read_spec(self.pair[0]), read_solution(self.pair[1])

    def test_read_back(self):
        self.assertEqual(spec_text(self.spec), read_text(self.pair[0]))
        self.assertEqual(call("prove", read_text(self.pair[0]), read_text(self.pair[1])), (0, "solves\n"))
        self.assertEqual([self.spec.start_state(edge) for edge in range(2)], [1, 2])

    def test_begins(self):
        self.assertIn("process p1 is a lamp, from R on", tool("guarded", *self.pair))
        self.assertIn("byte at_p1 = lamp_R;", tool("promela", *self.pair))
        states, _ = whole_states(self.spec, self.solution)
        self.assertEqual(states[0], (("L", "R", "L"), (0, 0)))

    def test_certificate(self):
        text = tool("certificate", *self.pair)
        self.assertEqual(verdict(self.spec, self.solution, text), "accepted")
        second = text.index("star lamp turns.a turns.b")
        startless = text[:second] + text[second:].replace("member 1 2\n", "", 1)
        self.assertEqual(verdict(self.spec, self.solution, startless), "start-missing 1")

    def test_why(self):
        self.spec.kinds["turns"].clauses = ["a.L"]
        path = in_room("clauses.pairs", spec_text(self.spec))
        self.assertIn("it fails at the start, state 2 (R L)", tool("why", path, self.pair[1]))


class Kept(unittest.TestCase):
    """The certificates in `examples/`, each beside the solution of its name."""
    def test_certificates(self):
        files = set(os.listdir(EXAMPLES)) - {"circle.certificate"}  # which is refused
        names = sorted(file[:-12] for file in files if file.endswith(".certificate"))
        self.assertGreater(len(names), 10)
        for name in names:
            spec, solution = example(f"{name}.pairs"), example(f"{name}.solution")
            text = tool("certificate", spec, solution)
            self.assertEqual(text, read_text(example(f"{name}.certificate")), name)
            self.assertEqual(verdict(read_spec(spec), read_solution(solution), text), "accepted", name)
            self.assertEqual(whole_states(read_spec(spec), read_solution(solution))[1], [], name)


class Tutorial(unittest.TestCase):
    """The commands of docs/TUTORIAL.md, in a folder of their own, and what the page shows. `..` is any lines."""
    def test_commands(self):
        room = os.path.join(ROOM.name, "tutorial")
        os.makedirs(room)
        for folder in ("examples", "tools"):
            os.symlink(os.path.join(TOP, folder), os.path.join(room, folder))
        with open(os.path.join(room, "skeleton_run"), "w") as file:
            file.write(f'#!/bin/sh\nexec "{program()}" "$@"\n')
        os.chmod(os.path.join(room, "skeleton_run"), 0o755)
        page = read_text(os.path.join(TOP, "docs", "TUTORIAL.md"))
        blocks = re.findall(r"^    \$ (.*)\n((?:    (?!\$ ).*\n)*)", page, re.M)
        self.assertGreater(len(blocks), 10)
        env = {**os.environ, "SKELETON_RUN": os.path.abspath(program()), "PYTHONDONTWRITEBYTECODE": "1"}
        for command, shown in blocks:
            done = subprocess.run(["bash", "-c", command], cwd=room, stdout=subprocess.PIPE, stderr=subprocess.PIPE,
                                  env=env, text=True)
            lines = [".*" if line == "    .." else re.escape(line[4:]) + "\n" for line in shown.splitlines()]
            self.assertTrue(re.fullmatch("".join(lines), done.stdout, re.S), f"{command}: {done.stdout}{done.stderr}")


class Mended(unittest.TestCase):
    def test_accepted(self):
        for name in ("drinkers", "grid", "allocator", "lights"):
            path = in_room(f"{name}_mended.pairs", tool("mend", example(f"{name}.pairs")))
            status, text = call("synth", read_text(path))
            self.assertEqual(status, 0)
            solution = in_room(f"{name}_mended.solution", text)
            self.assertEqual(call("prove", read_text(SOLVED[name][0]), text), (0, "solves\n"))
            spec, found = read_spec(path), read_solution(solution)
            self.assertEqual(verdict(spec, found, tool("certificate", path, solution)), "accepted")
        spec = read_spec(os.path.join(ROOM.name, "drinkers_mended.pairs"))
        spec.processes = {name: "drinker" for name in ("ann", "bob", "cyd")}
        spec.edges = [("ann", "bob", "bottle"), ("bob", "cyd", "bottle"), ("cyd", "ann", "bottle")]
        solution = read_solution(os.path.join(ROOM.name, "drinkers_mended.solution"))
        self.assertEqual(whole_states(spec, solution)[1], [])

    def test_none(self):
        self.assertIn("writer in WAIT: yield", tool("mend", example("priority.pairs"), status=3))
        self.assertIn("producer in WAIT: yield", tool("mend", example("buffer.pairs"), status=3))


if __name__ == "__main__":
    unittest.main()
