#!/usr/bin/env python3
"""make_certificate.py CASE FOLDER: writes a specification, a solution and a certificate as FOLDER/CASE.pairs, .solution and .certificate.
`turns`: three in a row that move in turn, in structures of 2,000 states; 2,004,000 members in three stars. `ring`: 1,024 philosophers in a
ring, three stars of 29 members. `wide`: one process with 32 neighbours, of which no two have the same label, and 31 arcs out of the local
state where it begins; no star."""
import os
import sys
from itertools import product

case, folder = sys.argv[1:]


def write(ending, lines):
    with open(os.path.join(folder, f"{case}.{ending}"), "w") as out:
        out.writelines(f"{line}\n" for line in lines)


def structure(kind, states, moves):
    """The lines of a kind's structure: states as pairs of local states, moves as triples."""
    return [f"kind {kind}", *(f"state {a} {b}" for a, b in states), *("move " + " ".join(map(str, move)) for move in moves), "end"]


def star(role, kind, sides, states):
    """A star with all star states that agree on the centre's local state."""
    by_local = [{} for _ in sides]
    for found, side in zip(by_local, sides):
        for number, label in enumerate(states):
            found.setdefault(label["ab".index(side)], []).append(number)
    members = [member for local in by_local[0] for member in product(*(found.get(local, []) for found in by_local))]
    yield "star " + " ".join([role, *(f"{kind}.{side}" for side in sides)])
    for member in sorted(members):
        yield "member " + " ".join(map(str, member))
    yield "end"


def turns(count=500):
    role = ["role lamp", "local L", "local R", "start L", "arc L R", "arc R L", "end"]
    processes = [f"process p{n} lamp" for n in range(3)]
    write("pairs", ["pairs 1", *role, "kind turn lamp lamp", "end", *processes, "edge p0 p1 turn", "edge p1 p2 turn", "done"])
    states = [("L", "L"), ("R", "L"), ("R", "R"), ("L", "R")] * count
    moves = [(n, "ab"[n % 2], (n + 1) % len(states)) for n in range(len(states))]
    write("solution", ["solution 1", *structure("turn", states, moves), "done"])
    stars = [line for sides in ("a", "ab", "b") for line in star("lamp", "turn", sides, states)]
    write("certificate", ["certificate 1", *stars, "done"])


def ring(count=1024):
    role = ["role phil", "local N", "local T", "local C", "start N", "arc N T free", "arc T C", "arc C N free", "end"]
    clauses = ["require AG !(a.C & b.C)", "require AG (a.T -> AF a.C)", "require AG (b.T -> AF b.C)"]
    processes = [f"process p{n} phil" for n in range(count)]
    edges = [f"edge p{n} p{(n + 1) % count} fork" for n in range(count)]
    write("pairs", ["pairs 1", *role, "kind fork phil phil", *clauses, "end", *processes, *edges, "done"])
    states = [tuple(label) for label in "NN TN NT CN TT TT NC CT TC".split()]
    moves = "0a1 0b2 1a3 1b4 2a5 2b6 3a0 3b7 4a7 5b8 6a8 6b0 7a2 8b1".split()
    write("solution", ["solution 1", *structure("fork", states, moves), "done"])
    stars = [line for sides in ("aa", "ab", "bb") for line in star("phil", "fork", sides, states)]
    write("certificate", ["certificate 1", *stars, "done"])


def wide(kinds=16):
    arcs = [line for n in range(1, 32) for line in (f"arc H0 H{n}", f"arc H{n} H0")]
    role = ["role hub", *(f"local H{n}" for n in range(32)), "start H0", *arcs, "end"]
    heads = [line for k in range(kinds) for line in (f"kind k{k} hub hub", "end")]
    edges = [line for k in range(kinds) for line in (f"edge hub p{2 * k} k{k}", f"edge p{2 * k + 1} hub k{k}")]
    processes = ["process hub hub", *(f"process p{n} hub" for n in range(2 * kinds))]
    write("pairs", ["pairs 1", *role, *heads, *processes, *edges, "done"])
    states, moves = [("H0", "H0"), ("H1", "H0"), ("H0", "H1")], "0a1 0b2 1a0 2b0".split()
    write("solution", ["solution 1", *(line for k in range(kinds) for line in structure(f"k{k}", states, moves)), "done"])
    write("certificate", ["certificate 1", "done"])


{"turns": turns, "ring": ring, "wide": wide}[case]()
