"""Formulas of CTL over a pair structure: reading them, and where they are true. `prove` judges; this is for showing."""
import re

UNARY = {"!", "AX", "AXa", "AXb", "EX", "EXa", "EXb", "AG", "EG", "AF", "EF"}


class Reader:
    """Reads a formula into a tree: tuples whose first item is the operator."""

    def __init__(self, text):
        self.tokens = re.findall(r"->|[A-Za-z0-9_.]+|\S", text)

    def take(self, wanted=None):
        """Takes a token, which has to be the wanted one where one is given."""
        token = self.tokens.pop(0) if self.tokens else ""
        if wanted not in (None, token):
            raise SystemExit(f"a formula has {token!r} where {wanted!r} was expected")
        return token

    def formula(self):
        """An implication, which groups to the right."""
        left = self.joined("|", lambda: self.joined("&", self.unary))
        if self.tokens[:1] == ["->"]:
            self.take()
            return ("->", left, self.formula())
        return left

    def joined(self, sign, part):
        """Parts with a sign between them, which group to the left."""
        left = part()
        while self.tokens[:1] == [sign]:
            self.take()
            left = (sign, left, part())
        return left

    def unary(self):
        """An operator with its operand, an until, a constant, an atom, or a formula in parentheses."""
        token = self.take()
        if token in UNARY:
            return (token, self.unary())
        if token == "(":
            inner = self.formula()
            self.take(")")
            return inner
        if token in ("A", "E"):
            self.take("[")
            left, until = self.formula(), self.take()
            right = self.formula()
            self.take("]")
            return (token + until, left, right)
        return (token,)


def read_formula(text):
    """The tree of a formula."""
    reader = Reader(text)
    tree = reader.formula()
    reader.take("")
    return tree


def fixed(step, states):
    """Applies a step to a set of states until it stays."""
    while (after := step(states)) != states:
        states = after
    return states


def until(structure, sign, left, right):
    """The states of an until: AU, EU as least and AW, EW as greatest sets that hold what they ask for."""
    every = set(range(len(structure.states)))
    some = any if sign[0] == "E" else all
    def step(states):
        return right | {s for s in left if some(t in states for _, _, t in structure.moves_of(s))}
    return fixed(step, set() if sign[1] == "U" else every)


def where(structure, tree):
    """The states of a structure at which a formula is true."""
    every, sign = set(range(len(structure.states))), tree[0]
    parts = [where(structure, part) for part in tree[1:]]
    if sign in ("true", "false"):
        return every if sign == "true" else set()
    if "." in sign:
        side, local = sign.split(".")
        return {s for s in every if structure.local(s, side) == local}
    if sign in ("!", "->"):
        return every - parts[0] | (parts[1] if sign == "->" else set())
    if sign in ("&", "|"):
        return parts[0] & parts[1] if sign == "&" else parts[0] | parts[1]
    if sign[1] == "X":
        some = any if sign[0] == "E" else all
        return {s for s in every if some(t in parts[0] for _, _, t in structure.moves_of(s, sign[2:] or "ab"))}
    if sign[1] == "G":
        return until(structure, sign[0] + "W", parts[0], set())
    if sign[1] == "F":
        return until(structure, sign[0] + "U", every, parts[0])
    return until(structure, sign, *parts)
