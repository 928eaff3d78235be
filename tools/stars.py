"""Stars: a process, the centre, with some of its neighbours, the leaves; the pair states that they have together. A
star begins where each leaf has pair state 0, or that in which some edge of its kind begins."""
from collections import Counter
from itertools import combinations, product

from pairs import OTHER


def shapes(spec):
    """The shapes of all processes, each once: (role, labels), a label being (number of the kind, the centre's side)."""
    number, found = {kind: n for n, kind in enumerate(spec.kinds)}, {}
    for process, name in spec.processes.items():
        labels = sorted((number[kind], side) for _, kind, side, _ in spec.near(process))
        most = max(Counter(arc[0] for arc in spec.roles[name].arcs).values())
        if labels:
            found.update({(name, chosen): None for chosen in combinations(labels, min(len(labels), most + 1))})
    return list(found)


class Leaf:
    """What a pair of one label does, state by state: where the centre and the leaf can go, and who keeps whom."""

    def __init__(self, spec, solution, label):
        self.kind, self.side = list(spec.kinds)[label[0]], label[1]
        self.name, self.structure = f"{self.kind}.{self.side}", solution[self.kind]
        roles = [spec.role_of(self.kind, side) for side in (self.side, OTHER[self.side])]
        every = range(len(self.structure.states))
        self.centre = [self.sorted_moves(roles[0], s, self.side) for s in every]
        self.leaf = [self.sorted_moves(roles[1], s, OTHER[self.side]) for s in every]
        self.barred = [[arc for arc, ends in moves.items() if not ends] for moves in self.leaf]

    def sorted_moves(self, role, state, side):
        """For each arc that leaves a side's local state, in the role's order, the states that a move on it reaches."""
        arcs = role.leaving(self.structure.local(state, side))
        return {arc[:2]: [t for _, _, t in self.structure.moves_of(state, side)
                          if self.structure.local(t, side) == arc[1]] for arc in arcs}

    def text(self, state):
        """The leaf's local state, with the state of the pair."""
        return f"{self.structure.local(state, OTHER[self.side])} (pair state {state})"


class Star:
    """A shape with its leaves, its steps, and the test that comes after a step of the centre."""

    def __init__(self, spec, solution, shape):
        self.role, self.leaves = shape[0], [Leaf(spec, solution, label) for label in shape[1]]
        self.head = " ".join(["star", self.role, *(leaf.name for leaf in self.leaves)])
        begun = [{0} | {spec.start_state(e) for e, edge in enumerate(spec.edges) if edge[2] == leaf.kind}
                 for leaf in self.leaves]
        self.starts = [state for state in product(*map(sorted, begun))
                       if len({leaf.structure.local(s, leaf.side) for leaf, s in zip(self.leaves, state)}) == 1]

    def centre_steps(self, state):
        """The star states that a step of the centre reaches, each with the arc."""
        for arc in self.leaves[0].centre[state[0]]:
            ends = [leaf.centre[s][arc] for leaf, s in zip(self.leaves, state)]
            for reached in product(*ends):
                yield arc, reached

    def leaf_steps(self, state):
        """The star states that a step of a leaf reaches, each with the leaf and its arc."""
        for place, (leaf, s) in enumerate(zip(self.leaves, state)):
            for arc, ends in leaf.leaf[s].items():
                for end in ends:
                    yield place, arc, state[:place] + (end,) + state[place + 1:]

    def against(self, state):
        """For each arc from the centre's local state, the places of the leaves that do not permit it."""
        return {arc: [place for place, (leaf, s) in enumerate(zip(self.leaves, state)) if not leaf.centre[s][arc]]
                for arc in self.leaves[0].centre[state[0]]}

    def kept(self, state):
        """The leaves of which the centre bars an arc, as (place, arc)."""
        return [(place, arc) for place, (leaf, s) in enumerate(zip(self.leaves, state)) for arc in leaf.barred[s]]

    def waits(self, state):
        """Whether the centre bars an arc of some leaf, while each arc of its own is barred by some leaf."""
        return bool(self.kept(state)) and all(self.against(state).values())

    def centre_local(self, state):
        """The local state of the centre."""
        return self.leaves[0].structure.local(state[0], self.leaves[0].side)
