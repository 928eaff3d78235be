"""A judge of certificates and a search of whole states, for the tests: straight from the definitions, slow, and apart
from what the tools use."""
from itertools import combinations, product
from math import lcm

from pairs import OTHER


def moves_on(structure, state, side, arc):
    """The states that moves of a side on an arc reach, rising."""
    ends = [t for s, moved, t in structure.moves if (s, moved) == (state, side)]
    return sorted(t for t in ends if (structure.local(state, side), structure.local(t, side)) == tuple(arc[:2]))


def read_certificate(text):
    """Stars as (role, labels, members)."""
    stars = []
    for line in text.splitlines():
        head, *rest = line.split()
        if head == "star":
            stars.append((rest[0], [tuple(label.split(".")) for label in rest[1:]], []))
        elif head == "member":
            stars[-1][2].append(tuple(map(int, rest)))
    return stars


def steps(spec, solution, star, state):
    """The steps of a star state in their listed order, as (whether of the centre, star state reached)."""
    role, labels, _ = star
    structures = [solution[kind] for kind, _ in labels]
    found = []
    for arc in spec.roles[role].arcs:
        ends = [moves_on(m, s, side, arc) for m, s, (_, side) in zip(structures, state, labels)]
        found += [(True, reached) for reached in sorted(product(*ends))]
    for place, (m, s, (_, side)) in enumerate(zip(structures, state, labels)):
        ends = [t for leaves, moved, t in m.moves if (leaves, moved) == (s, OTHER[side])]
        found += [(False, state[:place] + (t,) + state[place + 1:]) for t in ends]
    return found


def is_calm(spec, solution, star, state):
    """Whether the centre permits every arc from every leaf's local state, or all leaves permit some arc of its own."""
    role, labels, _ = star
    pairs = [(solution[kind], s, side, spec.role_of(kind, OTHER[side])) for (kind, side), s in zip(labels, state)]
    m, s, side, _ = pairs[0]
    own = spec.roles[role].leaving(m.local(s, side))
    return (all(moves_on(m, s, OTHER[side], arc) for m, s, side, other in pairs
                for arc in other.leaving(m.local(s, OTHER[side])))
            or any(all(moves_on(m, s, side, arc) for m, s, side, _ in pairs) for arc in own))


def whole_start(spec):
    """The whole state at the start: local states, and values."""
    return tuple(map(spec.start_of, spec.processes)), (0,) * len(spec.edges)


def firings(spec, solution, whole, process):
    """For each arc from a process's local state: the arc, for each neighbour by name the permitted values, edge by
    edge."""
    places = {name: n for n, name in enumerate(spec.processes)}
    locals_, values = whole
    for arc in spec.roles[spec.processes[process]].leaving(locals_[places[process]]):
        near = {}
        for edge, kind, side, other in spec.near(process):
            commands = solution[kind].commands(side, arc)
            at = (locals_[places[other]], values[edge])
            near[edge, other] = sorted(c[2] for c in commands if c[:2] == at)
        yield arc, near


def has_peel_order(spec, solution, whole):
    """Whether all processes can be listed, each with an arc that only processes above it do not permit."""
    listed, more = set(), True
    while more:
        more = {p for p in set(spec.processes) - listed if any(
            all(values or other in listed for (_, other), values in near.items())
            for _, near in firings(spec, solution, whole, p))}
        listed |= more
    return listed == set(spec.processes)


def missing_shape(spec, stars):
    """The first process of which some shape is in no star."""
    number = {kind: n for n, kind in enumerate(spec.kinds)}
    listed = {(role, tuple((number[kind], side) for kind, side in labels)) for role, labels, _ in stars}
    for process, role in spec.processes.items():
        labels = sorted((number[kind], side) for _, kind, side, _ in spec.near(process))
        most = max(len(spec.roles[role].leaving(local)) for local in spec.roles[role].locals)
        chosen = combinations(labels, min(len(labels), most + 1)) if labels else []
        if any((role, choice) not in listed for choice in chosen):
            return process
    return None


def star_starts(spec, solution, labels):
    """The star states in which each leaf has pair state 0, or that in which some edge of its kind begins."""
    begun = {kind: {0} for kind in spec.kinds}
    for edge, (_, _, kind) in enumerate(spec.edges):
        begun[kind].add(spec.start_state(edge))
    return {state for state in product(*(begun[kind] for kind, _ in labels))
            if len({solution[kind].local(s, side) for (kind, side), s in zip(labels, state)}) == 1}


def first_step(spec, solution, stars, is_bad):
    """The first member with its first step that is bad, as (star, member, step)."""
    for number, star in enumerate(stars):
        members = set(star[2])
        for place, member in enumerate(star[2]):
            for step, (of_centre, reached) in enumerate(steps(spec, solution, star, member)):
                if is_bad(star, members, of_centre, reached):
                    return f"{number} {place} {step}"
    return None


def verdict(spec, solution, text):
    """The verdict on a certificate, as the command is to print it."""
    stars = read_certificate(text)
    if not has_peel_order(spec, solution, whole_start(spec)):
        return "no-peel"
    if process := missing_shape(spec, stars):
        return f"shape-missing {process}"
    for number, (_, labels, members) in enumerate(stars):
        if not set(members) >= star_starts(spec, solution, labels):
            return f"start-missing {number}"
    if at := first_step(spec, solution, stars, lambda star, members, _, reached: reached not in members):
        return f"not-closed {at}"
    waits = first_step(spec, solution, stars, lambda star, _, of_centre, reached:
                       of_centre and not is_calm(spec, solution, star, reached))
    return f"waits {waits}" if waits else "accepted"


def whole_states(spec, solution, bound=10**6):
    """All whole states that can be reached from the start by firings, with every pick; those in which no process can
    fire are given apart."""
    start = whole_start(spec)
    seen, stuck, places = {start}, [], {name: n for n, name in enumerate(spec.processes)}
    for whole in (queue := [start]):
        fired = 0
        for process, place in places.items():
            for arc, near in firings(spec, solution, whole, process):
                if not all(near.values()):
                    continue
                fired += 1
                for pick in range(lcm(*map(len, near.values()), 1)):
                    locals_, values = list(whole[0]), list(whole[1])
                    locals_[place] = arc[1]
                    for (edge, _), permitted in near.items():
                        values[edge] = permitted[pick % len(permitted)]
                    reached = (tuple(locals_), tuple(values))
                    if reached not in seen:
                        seen.add(reached)
                        queue.append(reached)
        stuck += [] if fired else [whole]
        assert len(queue) < bound, "too many whole states"
    return queue, stuck
