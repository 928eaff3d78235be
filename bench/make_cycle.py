#!/usr/bin/env python3
"""Writes a specification and a solution of it: a cycle of 1,400,016 states, 63 MB, in which the two sides move in turn through 8 local states."""
import sys

LOCALS, STATES = 8, 1_400_016
NAMES = [f"place_{n:02}" for n in range(LOCALS)]
CLAUSES = [
    "AG (AF a.place_00 & AF b.place_00)",
    "AG !(a.place_00 & b.place_04)",
    "AG (a.place_03 -> A[(a.place_03 | a.place_04) U a.place_05])",
    "AG (b.place_07 -> EX (b.place_07 | b.place_00))",
]

spec, solution = sys.argv[1:]
with open(spec, "w") as out:
    out.write("pairs 1\nrole wheel\n")
    out.writelines(f"local {name}\n" for name in NAMES)
    out.write(f"start {NAMES[0]}\n")
    out.writelines(f"arc {NAMES[n]} {NAMES[(n + 1) % LOCALS]}\n" for n in range(LOCALS))
    out.write("end\nkind turns wheel wheel\n")
    out.writelines(f"require {clause}\n" for clause in CLAUSES)
    out.write("end\ndone\n")
with open(solution, "w") as out:
    out.write("solution 1\nkind turns\n")
    out.writelines(f"state {NAMES[(k + 1) // 2 % LOCALS]} {NAMES[k // 2 % LOCALS]}\n" for k in range(STATES))
    out.writelines(f"move {k} {'ab'[k % 2]} {(k + 1) % STATES}\n" for k in range(STATES))
    out.write("end\ndone\n")
