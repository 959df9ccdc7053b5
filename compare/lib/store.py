"""Records the calls on one store and keeps its nodes at hand, as the Rust program dumps them."""

KINDS = ["Param", "Tuple", "Object", "Opaque", "Struct", "Enum", "Union", "Fn", "Closure", "Ref",
         "Key", "IfConst", "Never", "Default", "Error"]


def typ(node, inv=0):
    return {"node": node, "inv": inv}


def flip(t, by=1):
    return {"node": t["node"], "inv": t["inv"] ^ by}


def make_kind(kind, number=0, flex=0, names=(), kids=()):
    """What a kind lacks is 0 or empty; a Closure's return is its last kid."""
    return {"kind": kind, "number": number, "flex": flex, "names": list(names),
            "kids": list(kids)}


class Store:
    """The store in the Rust program's hand. `watch` is called with each recorded call and with
    the store before and after it."""

    def __init__(self, oracle, watch=None):
        self.oracle = oracle
        self.watch = watch
        self.calls = []
        self.state = oracle.send("dump")

    @property
    def nodes(self):
        return self.state["nodes"]

    def do(self, name, **args):
        answer = self.oracle.call(name, args)
        call = {"call": name, "args": args, "answer": answer}
        before, self.state = self.state, self.oracle.send("dump")
        self.calls.append(call)
        if self.watch:
            self.watch(call, before, self.state)
        return answer

    def finished(self):
        return {"calls": self.calls, "store": self.state}


def root(state, t):
    """The root's type, found as `find` finds it."""
    node, inv = t["node"], t["inv"]
    while state["nodes"][node]["is"] == "child":
        parent = state["nodes"][node]["type"]
        node, inv = parent["node"], inv ^ parent["inv"]
    return typ(node, inv)


def known(state, t):
    """The kind behind a type, or None."""
    content = state["nodes"][root(state, t)["node"]]["state"]
    return content["kind"] if content["is"] == "known" else None


def weight(state, t, seen=None):
    """How many nodes the type's tree has, each shared one counted every time it is met."""
    seen = {} if seen is None else seen
    node = root(state, t)["node"]
    if node not in seen:
        kind = known(state, typ(node))
        seen[node] = 1 + sum(weight(state, kid, seen) for kid in kind["kids"]) if kind else 1
    return seen[node]


def reached(state, types):
    """All roots that the types lead to."""
    seen, todo = [], list(types)
    while todo:
        node = root(state, todo.pop())["node"]
        if node not in seen:
            seen.append(node)
            kind = known(state, typ(node))
            todo += kind["kids"] if kind else []
    return seen
