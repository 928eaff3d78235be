#!/usr/bin/env python3
"""make_readers.py [ways]: writes a specification of a reader with 8 places to read at, and a writer that is served and never writes while one
reads. `ways`: a way stays to each place."""
import sys

PLACES = range(1, 9)

clauses = [f"AG !(a.L{n} & b.L2)" for n in PLACES] + ["AG (b.L1 -> AF b.L2)"]
if sys.argv[1:] == ["ways"]:
    clauses += [f"AG EF a.L{n}" for n in PLACES]
print("pairs 1\nrole reader\nlocal L0")
for n in PLACES:
    print(f"local L{n}")
print("start L0")
for n in PLACES:
    print(f"arc L0 L{n}\narc L{n} L0 free")
print("end\nrole writer\nlocal L0\nlocal L1\nlocal L2\nstart L0\narc L0 L1 free\narc L1 L2\narc L2 L0 free\nend\nkind pair reader writer")
for clause in clauses:
    print(f"require {clause}")
print("end\ndone")
