#!/usr/bin/env python3
"""make_kind.py KIND [STARTS [COUNT]]: writes a specification of one kind over two equal roles, whose local states are passed in a ring.
`free`: 32 local states, all arcs but one free, one exclusion. `exclusions`: 31 exclusion clauses. `responses`: 16 local states, each
answered by the next. `waiting`: 30 local states that are served, an exclusion, and two free arcs. `returns`: COUNT local states, 6 if
nothing is said, to each of which a way stays. The first STARTS local states, one if nothing is said, are the role's starts."""
import sys


def exclusion(n):
    return [f"AG !(a.L{n} & b.L{n})"]


def responses(begin, to):
    return [f"AG ({side}.L{begin} -> AF {side}.L{to})" for side in "ab"]


def returns(n):
    return [f"AG EF {side}.L{n}" for side in "ab"]


starts = int(sys.argv[2]) if len(sys.argv) > 2 else 1
ways = int(sys.argv[3]) if len(sys.argv) > 3 else 6
KINDS = {
    "free": (32, range(31), exclusion(31)),
    "exclusions": (32, [], sum((exclusion(n) for n in range(1, 32)), [])),
    "responses": (16, [], sum((responses(n, n + 1) for n in range(15)), [])),
    "waiting": (32, [0, 1], sum((responses(n, 31) for n in range(1, 31)), []) + exclusion(31)),
    "returns": (ways, [], sum((returns(n) for n in range(ways)), [])),
}

count, free, clauses = KINDS[sys.argv[1]]
print("pairs 1\nrole ring")
for n in range(count):
    print(f"local L{n}")
for n in range(starts):
    print(f"start L{n}")
for n in range(count):
    to = (n + 1) % count
    print(f"arc L{n} L{to}{' free' if to in free else ''}")
print("end\nkind pair ring ring")
for clause in clauses:
    print(f"require {clause}")
print("end\ndone")
