#!/usr/bin/env python3
"""Writes into a folder a ring of 1,024 philosophers, `ring.pairs`, and a journal of 4,194,304 firings that is a run of it, `ring.journal`: one
after the other tries, eats and thinks again."""
import sys

COUNT, ENTRIES = 1024, 4_194_304
HEAD = "pairs 1\nrole phil\nlocal N\nlocal T\nlocal C\nstart N\narc N T free\narc T C\narc C N free\nend\nkind mutex phil phil\nrequire AG !(a.C & b.C)\nrequire AG (a.T -> AF a.C)\nrequire AG (b.T -> AF b.C)\nend\n"

with open(f"{sys.argv[1]}/ring.pairs", "w") as spec:
    spec.write(HEAD)
    spec.writelines(f"process p{k} phil\n" for k in range(COUNT))
    spec.writelines(f"edge p{k} p{k + 1} mutex\n" for k in range(COUNT - 1))
    spec.write(f"edge p0 p{COUNT - 1} mutex\ndone\n")
with open(f"{sys.argv[1]}/ring.journal", "w") as journal:
    journal.write("journal 1\n")
    journal.writelines(f"entry {n} 0 {n // 3 % COUNT} {n % 3} {n * 7919 % 65537}\n" for n in range(ENTRIES))
    journal.write("done\n")
