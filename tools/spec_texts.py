"""The texts of specifications, read and written; `pairs.py` hands these names on.

The reader takes the texts that the program takes, of both formats. It is no judge: `synth` says what is wrong with one.
An atom of a set is spelled out where a clause is read, so the other tools see atoms of local states alone.
"""
import re
from dataclasses import dataclass, field


@dataclass
class Role:
    """Local states and starts in their order, the arcs as (from, to, free), and the members of sets by their names."""
    name: str
    locals: list = field(default_factory=list)
    starts: list = field(default_factory=list)
    arcs: list = field(default_factory=list)
    sets: dict = field(default_factory=dict)

    def leaving(self, local):
        """The arcs that leave a local state, in the role's order."""
        return [arc for arc in self.arcs if arc[0] == local]


@dataclass
class Kind:
    """The roles of side a and side b by name, and the clauses as texts."""
    name: str
    roles: dict
    clauses: list = field(default_factory=list)


@dataclass
class Spec:
    """Roles and kinds by name; processes as a role by name; of those that a text lets begin in a start that it names,
    that start; edges as (process a, process b, kind)."""
    roles: dict = field(default_factory=dict)
    kinds: dict = field(default_factory=dict)
    processes: dict = field(default_factory=dict)
    begins: dict = field(default_factory=dict)
    edges: list = field(default_factory=list)

    def role_of(self, kind, side):
        """The role of a side of a kind."""
        return self.roles[self.kinds[kind].roles[side]]

    def start_of(self, process):
        """The local state where a process begins."""
        return self.begins.get(process) or self.roles[self.processes[process]].starts[0]

    def start_count(self, kind):
        """The number of start states of a kind; they are its first."""
        return len(self.role_of(kind, "a").starts) * len(self.role_of(kind, "b").starts)

    def start_state(self, edge):
        """The pair state of an edge, by its number, in the start."""
        p, q, kind = self.edges[edge]
        a, b = (self.role_of(kind, side).starts for side in "ab")
        return a.index(self.start_of(p)) * len(b) + b.index(self.start_of(q))

    def near(self, process):
        """The edges of a process, as (number, kind, the process's side, neighbour), in their order."""
        found = [(e, kind, "a", q) for e, (p, q, kind) in enumerate(self.edges) if p == process]
        found += [(e, kind, "b", p) for e, (p, q, kind) in enumerate(self.edges) if q == process]
        return sorted(found)


def read_text(path):
    """The text of a file."""
    with open(path) as file:
        return file.read()


def without_sets(spec, kind, clause):
    """The clause with each atom of a set written as the disjunction of its members' atoms."""
    def spelled(found):
        members = spec.role_of(kind.name, found[1]).sets.get(found[2])
        atoms = [f"{found[1]}.{member}" for member in members or []]
        return found[0] if not members else atoms[0] if len(atoms) == 1 else f"({' | '.join(atoms)})"
    return re.sub(r"(?<![\w.])([ab])\.(\w+)(?![\w.])", spelled, clause)


def read_spec(path):
    """Reads a specification."""
    spec, role, kind = Spec(), None, None
    for number, line in enumerate(read_text(path).splitlines(), 1):
        words = line.split()
        if not words or words[0].startswith("#"):
            continue
        head, rest = words[0], words[1:]
        if head == "role":
            role = spec.roles[rest[0]] = Role(rest[0])
        elif head == "local":
            role.locals.append(rest[0])
        elif head == "start":
            role.starts.append(rest[0])
        elif head == "set":
            role.sets[rest[0]] = rest[1:]
        elif head == "arc":
            role.arcs.append((rest[0], rest[1], len(rest) > 2))
        elif head == "kind":
            kind = spec.kinds[rest[0]] = Kind(rest[0], {"a": rest[1], "b": rest[2]})
        elif head == "require":
            kind.clauses.append(without_sets(spec, kind, " ".join(rest)))
        elif head == "process":
            spec.processes[rest[0]] = rest[1]
            spec.begins.update({rest[0]: rest[2]} if len(rest) > 2 else {})
        elif head == "edge":
            spec.edges.append(tuple(rest))
        elif head not in ("pairs", "end", "done"):
            raise SystemExit(f"{path}: line {number} is none of a specification")
    return spec


def spec_text(spec):
    """The text of a specification, of format 2 and without sets."""
    lines = ["pairs 2"]
    for role in spec.roles.values():
        lines += [f"role {role.name}", *(f"local {local}" for local in role.locals)]
        lines += [f"start {local}" for local in role.starts]
        lines += [f"arc {p} {q}{' free' if free else ''}" for p, q, free in role.arcs] + ["end"]
    for kind in spec.kinds.values():
        lines += [f"kind {kind.name} {kind.roles['a']} {kind.roles['b']}"]
        lines += [f"require {clause}" for clause in kind.clauses] + ["end"]
    for name, role in spec.processes.items():
        start = spec.start_of(name)
        lines.append(f"process {name} {role}" + (f" {start}" if start != spec.roles[role].starts[0] else ""))
    lines += ["edge " + " ".join(edge) for edge in spec.edges] + ["done"]
    return "\n".join(lines) + "\n"
