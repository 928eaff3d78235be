#!/usr/bin/env python3
"""Writes a specification of 1,048,576 bytes, filled up with comments: `graph` has 1,024 processes and 16,384 edges, `clauses` has
30,000 copies of one clause."""
import sys

SIZE = 1_048_576
CLAUSE = "require AG (a.T -> AF(a.C&!b.C))"
ROLE = ["local N", "local T", "local C", "start N", "arc N T free", "arc T C", "arc C N free", "end"]


def long_name(letter, number):
    return f"{letter}{number:015}"


def graph():
    role, kind = long_name("r", 0), long_name("k", 0)
    yield from ["role " + role, *ROLE, f"kind {kind} {role} {role}", CLAUSE, "end"]
    for process in range(1024):
        yield f"process {long_name('p', process)} {role}"
    for step in range(1, 17):
        for process in range(1024):
            yield f"edge {long_name('p', process)} {long_name('p', (process + step) % 1024)} {kind}"


def clauses():
    yield from ["role phil", *ROLE, "kind mutex phil phil", *([CLAUSE] * 30_000), "end"]


lines = ["pairs 1", *{"graph": graph, "clauses": clauses}[sys.argv[1]](), "done"]
text = "".join(line + "\n" for line in lines)
while len(text) < SIZE:
    text += "#" * min(79, SIZE - len(text) - 1) + "\n"
assert len(text) == SIZE
sys.stdout.write(text)
