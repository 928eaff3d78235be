#!/usr/bin/env python3
"""make_grid.py WIDTH: writes a specification of WIDTH times WIDTH philosophers on a grid, each with those beside it and below it in mutual
exclusion: `examples/mutex_first.solution` solves it."""
import sys

width = int(sys.argv[1])
count = width * width
print("pairs 1\nrole phil\nlocal N\nlocal T\nlocal C\nstart N\narc N T free\narc T C\narc C N free\nend\nkind mutex phil phil")
for clause in ["AG !(a.C & b.C)", "AG (a.T -> AF a.C)", "AG (b.T -> AF b.C)"]:
    print(f"require {clause}")
print("end")
for k in range(count):
    print(f"process p{k} phil")
for k in range(count):
    if k % width < width - 1:
        print(f"edge p{k} p{k + 1} mutex")
    if k + width < count:
        print(f"edge p{k} p{k + width} mutex")
print("done")
