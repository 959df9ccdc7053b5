"""The moves that random cases are made of. A move is one or a few calls on the store in hand."""

from lib.pairs import Pairs
from lib.store import known, reached, typ, weight
from lib.trees import BRANCHES, SPANS

# How often each move is taken, before a case's own taste.
WEIGHTS = {
    "var": 2, "vars": 1, "leaf": 3, "build": 7, "over_params": 1, "remember": 2,
    "twins": 9, "leaves": 3, "other_number": 2, "any_pair": 6, "self_pair": 3, "self_dual": 3,
    "same_kind": 6, "again": 2, "occurs": 3, "objects": 3, "closures": 3, "duals": 4,
    "bind_inverted": 3, "merge_remembered": 2, "chain": 1.2,
    "unify_types": 3, "unify_objects": 3, "unify_impl_type": 3, "unify_fn_sig": 4,
    "force": 5, "finish": 0.8, "finish_where": 1.5, "reset": 0.4,
    "find": 2, "find_mut": 2, "self_inverse": 4, "is_nil": 3, "get_mod": 5, "approx_eq": 2,
    "find_related": 4, "show": 10, "show_impl_type": 5,
    "import": 4, "export": 4, "bind_param": 0.5,
}
# Not on a source store.
MAIN_ONLY = ["reset", "import"]
# No list of parameters is longer.
LONGEST = 20
# A text is asked for only if the trees in it have no more nodes than this.
SHOWN = 40


class Moves(Pairs):
    def take(self, name):
        getattr(self, "import_" if name == "import" else name)()

    def heaviest(self):
        """The weight of the heaviest tree in the store."""
        seen = {}
        return max((weight(self.store.state, typ(node), seen)
                    for node in range(len(self.store.nodes))), default=0)

    # Makers

    def var(self):
        self.new_var()

    def vars(self):
        self.do("new_vars", span=self.rng.choice(SPANS), count=self.rng.randrange(4))

    def leaf(self):
        self.plant(self.trees.leaf([]))

    def build(self):
        kind = self.trees.liked(BRANCHES)
        kids = [self.trees.old(self.any_type()) for _ in range(self.trees.width(kind))]
        self.plant(self.trees.kind(kind, self.trees.maybe_nil_last(kind, kids)))

    def over_params(self):
        """A tree with a Param or two in it, for imports to replace."""
        tree = self.trees.branch(self.olds(), 1)
        for _ in range(self.rng.randrange(1, 3)):
            tree = self.trees.at_random(tree, lambda _: self.trees.leaf_kind("Param"))
        self.plant(tree)

    def bind_param(self):
        """A variable that is a Param, or its inverse: imports replace it too."""
        param = self.mostly(self.of_kinds("Param"), 0.8)
        self.unify(self.without_kind() or self.new_var(), self.turned(param))

    def remember(self):
        self.do(self.rng.choice(["error", "nil"]))

    # Changes of state

    def force(self):
        self.do("force_kind", type=self.mostly(self.without_kind()))

    def finish(self):
        if self.rng.random() < 0.4:
            self.force()
        self.do("finish_inference")

    def finish_where(self):
        if self.rng.random() < 0.4:
            self.force()
        count = len(self.store.nodes)
        count = count if self.rng.random() < 0.7 else self.rng.randrange(count + 1)
        self.do("finish_inference_where",
                bytes=[self.rng.choice([0, 0, 1, 1, 255, 128]) for _ in range(count)])

    def reset(self):
        for move in (self.remember, self.remember, self.force):
            if self.rng.random() < 0.6:
                move()
        self.do("reset")
        self.remember()

    # Reads

    def find(self):
        self.do("find", type=self.child() or self.any_type())

    def find_mut(self):
        self.do("find_mut", type=self.child() or self.any_type())

    def self_inverse(self):
        t = self.with_kind(lambda kind: kind["kids"] or kind["kind"] == "Param")
        self.do("self_inverse", type=t or self.any_type(), param=self.rng.randrange(2))

    def is_nil(self):
        self.do("is_nil", type=self.mostly(self.of_kinds("Tuple", "Object")))

    def get_mod(self):
        """Through one or two Refs now and then."""
        t = self.mostly(self.of_kinds("Opaque", "Struct", "Enum", "Union", "Ref", "Error"))
        for _ in range(self.rng.choice([0, 0, 0, 1, 1, 2])):
            t = self.plant(self.trees.kind("Ref", [self.trees.old(t)]))
        self.do("get_mod", type=t)

    def approx_eq(self):
        self.do("approx_eq", a=self.impl_type(self.some_types(3)),
                b=self.impl_type(self.some_types(3)))

    def find_related(self):
        t = self.with_kind(lambda kind: kind["kids"]) or self.any_type()
        marks = [node for node in range(len(self.store.nodes)) if self.rng.random() < 0.2]
        self.do("find_related", type=t, marks=marks)

    def light(self, types):
        return sum(weight(self.store.state, t) for t in types) <= SHOWN

    def show(self):
        t = self.mostly(self.with_kind(lambda kind: kind["kids"]), 0.8)
        if self.light([t]):
            self.do("show", type=t)

    def show_impl_type(self):
        """Half of the time what the fn form asks for, or all but the trait."""
        impl = self.impl_type(self.some_types(3))
        if self.rng.random() < 0.6:
            types = [self.any_type() for _ in range(3)]
            full = self.with_kind(lambda kind: kind["kind"] == "Tuple" and kind["kids"])
            types[1] = full or self.of_kinds("Tuple") or types[1]
            types[2] = self.mostly(self.of_kinds("Tuple"), 0.3)
            trait = self.rng.choice(self.traits + [self.fn_trait] * 2)
            impl = {"is": "trait", "trait": trait, "types": types}
        if self.light(impl.get("types", [])):
            self.do("show_impl_type", impl=impl)

    # Transfers

    def param_numbers(self, types):
        """The numbers of the Params that these types of the source reach."""
        state = self.source.state
        kinds = [known(state, typ(node)) for node in reached(state, types)]
        return [kind["number"] for kind in kinds if kind and kind["kind"] == "Param"]

    def params(self, types):
        """None, or a list with an entry for each Param that the types reach."""
        needed = max(self.param_numbers(types), default=-1) + 1
        if needed > LONGEST or self.rng.random() < 0.25:
            return None
        return [self.any_type() for _ in range(needed + self.rng.randrange(2))]

    def picked(self):
        """Types of the source, half of the time with Params in them if there are any."""
        nodes = range(len(self.source.nodes))
        fit = [node for node in nodes if self.param_numbers([typ(node)])]
        nodes = fit if fit and self.rng.random() < 0.6 else nodes
        count = self.rng.choice([0, 1, 1, 2, 3, 4])
        types = [self.among(nodes) for _ in range(count)]
        while types and self.rng.random() < 0.3:
            types.append(self.turned(self.rng.choice(types)))
        return types

    def import_(self):
        types = self.picked() if self.source.nodes else []
        self.do("import", types=types, params=self.params(types))

    def export(self):
        if self.rng.random() < 0.4:
            self.take(self.rng.choice(["remember", "merge_remembered"]))
        self.do("export", types=self.some_types(3))
