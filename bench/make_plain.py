#!/usr/bin/env python3
"""Writes a specification of 16 kinds over roles of 32 local states, with 8 clauses each."""
ROLES, LOCALS, KINDS, CLAUSES = 2, 32, 16, 8

def role(name):
    print(f"role {name}")
    for n in range(LOCALS):
        print(f"local L{n}")
    print("start L0")
    for n in range(LOCALS):
        free = " free" if n < 20 else ""
        print(f"arc L{n} L{(n + 1) % LOCALS}{free}")
    for n in range(0, LOCALS, 2):
        print(f"arc L{n} L{(n + 2) % LOCALS}")
    print("end")

print("pairs 1")
for r in range(ROLES):
    role(f"r{r}")
for k in range(KINDS):
    print(f"kind k{k} r{k % 2} r{(k + 1) % 2}")
    for c in range(CLAUSES):
        p, q = 24 + (c + k) % 8, 24 + (c * 3 + k) % 8
        print(f"require AG !(a.L{p} & b.L{q})")
    print("end")
print("done")
