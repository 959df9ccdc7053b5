"""What an import or an export takes of room, counted in the source as the Rust left it, and the calls around it: with one node, child, entry or place in the
answer's list less it is turned back, with exactly enough it is done."""

from lib.store import known, reached, typ


def params(state, types):
    """The numbers of the Params that these types reach."""
    kinds = [known(state, typ(node)) for node in reached(state, types)]
    return [kind["number"] for kind in kinds if kind and kind["kind"] == "Param"]


def needs(state, types, listed):
    """Nodes and children; with a parameter list no node is made for a Param."""
    kinds = [known(state, typ(node)) for node in reached(state, types)]
    kept = [kind for kind in kinds if not (listed and kind and kind["kind"] == "Param")]
    return len(kept), sum(len(kind["kids"]) for kind in kept if kind)


def short_lists(state, types, entries):
    """Parameter lists that lack an entry: one too short, or an empty one where there is none."""
    numbers = params(state, types)
    if not numbers:
        return []
    return [[]] if entries is None else [entries[:max(numbers)]]


def imports(source, types, entries, nodes, children):
    """Rooms for nodes and children, a parameter list, room for answers, and the number that turns the import back; None where it is done."""
    more, kids = needs(source, types, entries is not None)
    enough = (nodes + more, children + kids)
    rows = [(enough, short, len(types), 6) for short in short_lists(source, types, entries)]
    if more:
        fewer = (nodes + more - 1, children + kids)
        rows += [(fewer, short, 0, 6) for short in short_lists(source, types, entries)] + [(fewer, entries, 0, 10)]
    if kids:
        rows.append(((nodes + more, children + kids - 1), entries, 0, 11))
    if types:
        rows.append((enough, entries, len(types) - 1, 7))
    return rows + [(enough, entries, len(types), None)]


def exports(fresh, types):
    """The same for an export, and the words that are lent of the nodes and of the children."""
    nodes = len(fresh["nodes"])
    kinds = [known(fresh, typ(node)) for node in range(nodes)]
    children = sum(len(kind["kids"]) for kind in kinds if kind)
    words = (nodes * 12, children * 4)
    rows = []
    if nodes:
        rows += [((nodes, children), 0, (words[0] - 1, words[1]), 1), ((nodes - 1, children), 0, words, 10)]
    if children:
        rows += [((nodes, children), 0, (words[0], words[1] - 1), 1), ((nodes, children - 1), 0, words, 11)]
    if types:
        rows.append(((nodes, children), len(types) - 1, words, 7))
    return rows + [((nodes, children), len(types), words, None)]
