"""The store in hand, and ways to choose types from it."""

from lib.store import flip, known, typ


class Hand:
    def __init__(self, rng, trees, chart, store, source):
        self.rng, self.trees, self.store = rng, trees, store
        self.source = source
        self.fn_trait = chart["fn_trait"]
        self.traits = [place for place, record in enumerate(chart["records"])
                       if record["sort"] == 6]
        self.last = None

    def any_type(self):
        """Any node, a late one more often, inverted half of the time."""
        count = len(self.store.nodes)
        if count == 0:
            return self.trees.new_var(self.store)
        first = self.rng.choice([0, 0, count * 2 // 3])
        return typ(self.rng.randrange(first, count), self.rng.randrange(2))

    def some_types(self, most):
        return [self.any_type() for _ in range(self.rng.randrange(most + 1))]

    def among(self, nodes):
        """One of these nodes, inverted half of the time, or None."""
        return self.turned(typ(self.rng.choice(nodes))) if nodes else None

    def with_kind(self, test):
        """A type whose root has a kind that passes the test, or None."""
        return self.among([node for node in range(len(self.store.nodes))
                           if (kind := known(self.store.state, typ(node))) and test(kind)])

    def of_kinds(self, *kinds):
        return self.with_kind(lambda kind: kind["kind"] in kinds)

    def without_kind(self):
        return self.among([node for node in range(len(self.store.nodes))
                           if known(self.store.state, typ(node)) is None])

    def child(self):
        """A node that has a parent, or None."""
        return self.among([node for node, what in enumerate(self.store.nodes)
                           if what["is"] == "child"])

    def mostly(self, t, share=0.7):
        """This type, if there is one and mostly, else any."""
        return t if t and self.rng.random() < share else self.any_type()

    def partner(self, t):
        """A type that has a chance to unify with this one."""
        way = self.rng.random()
        if way < 0.45:
            return self.without_kind() or t
        return self.turned(t) if way < 0.6 else self.any_type()

    def list_pair(self):
        """Two lists, mostly of one length."""
        one = self.some_types(3)
        two = [self.partner(t) for t in one]
        return one, two if self.rng.random() < 0.8 else self.some_types(3)

    def olds(self):
        return [self.any_type() for _ in range(3)] if self.store.nodes else []

    def turned(self, t):
        return flip(t, self.rng.randrange(2))

    def do(self, name, **args):
        return self.store.do(name, **args)

    def plant(self, tree, env=None):
        return self.trees.plant(self.store, tree, {} if env is None else env)

    def new_var(self):
        return self.trees.new_var(self.store)

    def unify(self, a, b):
        """Now and then in the other order with both inverted."""
        if self.rng.random() < 0.3:
            a, b = flip(b), flip(a)
        self.unify_as_given(a, b)

    def unify_as_given(self, a, b):
        self.last = (a, b)
        self.do("unify", a=a, b=b)
