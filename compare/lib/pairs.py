"""Moves that unify."""

from lib.hand import Hand
from lib.store import flip, known
from lib.trees import SPANS

SELF_DUAL = ["Tuple", "Object", "Struct", "Union", "IfConst", "Default", "Error"]
NUMBERED = ["Opaque", "Struct", "Enum", "Union", "IfConst", "Closure"]


class Pairs(Hand):
    def twins(self):
        """Two trees that agree but for variables and, half of the time, a spoiled part."""
        tree = self.trees.branch(self.olds(), 2)
        one, two = tree, tree
        for _ in range(self.rng.randrange(3)):
            one = self.trees.loosened(one) if self.rng.random() < 0.5 else one
            two = self.trees.loosened(two)
        if self.rng.random() < 0.5:
            two = self.trees.spoiled(two, self.olds())
        inverted = self.rng.randrange(2)
        if inverted:
            two = self.trees.inverse(two)
        env = {}
        a = self.plant(one, env)
        b = self.plant(two, env if self.rng.random() < 0.4 else {})
        self.unify(a, flip(b, inverted))

    def leaves(self):
        """Two kinds without children, mostly the same one."""
        kind = self.rng.choice(["Param", "Fn", "Key", "Never", "Default"])
        one = self.trees.kind(kind, [])
        two = self.trees.kind(kind, []) if self.rng.random() < 0.4 else dict(one)
        if kind == "Param" and self.rng.random() < 0.5:
            two["names"] = self.trees.some_names(1)
        a, b = self.plant(one | {"inv": 0}), self.plant(two | {"inv": 0})
        self.unify(a, flip(b, self.rng.random() < 0.25))

    def other_number(self):
        """One kind over the same children, with numbers drawn twice."""
        kind = self.rng.choice(NUMBERED)
        kids = [self.trees.old(self.any_type()) for _ in range(self.trees.width(kind))]
        one, two = self.trees.kind(kind, kids), self.trees.kind(kind, kids)
        self.unify(self.plant(one | {"inv": 0}), self.plant(two | {"inv": 0}))

    def any_pair(self):
        self.unify(self.any_type(), self.any_type())

    def self_pair(self):
        t = self.mostly(self.of_kinds(*SELF_DUAL))
        self.unify(t, flip(t, self.rng.random() < 0.85))

    def self_dual(self):
        """A tree that is its own inverse, or nearly, against its inverse or asked about."""
        leaves = [self.trees.leaf_kind(self.rng.choice(["Nil", "Nil", "Default", "Error", "Param"]))
                  for _ in range(2)]
        kind = self.rng.choice(["Tuple", "Tuple", "Object", "Struct", "Union", "IfConst"])
        t = self.plant(self.trees.kind(kind, leaves))
        if self.rng.random() < 0.4:
            t = self.plant(self.trees.kind("Tuple", [self.trees.old(t)] * 2))
        if self.rng.random() < 0.5:
            self.unify(t, flip(t))
        else:
            self.do("self_inverse", type=t, param=self.rng.randrange(2))

    def same_kind(self):
        a = self.with_kind(lambda kind: True) or self.any_type()
        kind = known(self.store.state, a)
        b = self.of_kinds(kind["kind"]) if kind else None
        self.unify(a, b or self.any_type())

    def again(self):
        if self.last and max(t["node"] for t in self.last) < len(self.store.nodes):
            a, b = self.last
            self.unify(*self.rng.choice([(a, b), (b, a), (a, flip(b))]))

    def occurs(self):
        """A variable against something that holds it, or its partner."""
        var = self.without_kind() or self.new_var()
        inside = self.turned(var)
        if self.rng.random() < 0.4:
            inside = self.new_var()
            self.unify(self.turned(var), self.turned(inside))
        tree = self.trees.branch([inside], 1)
        tree = self.trees.at_random(tree, lambda _: self.trees.old(inside))
        holder = self.plant(tree)
        if self.rng.random() < 0.3:
            between = self.new_var()
            self.unify(between, holder)
            holder = self.turned(between)
        self.unify(self.turned(var), holder)

    def fields(self, most=3):
        names = self.trees.some_names(self.rng.randrange(most + 1))
        return {"names": names, "kids": [self.any_type() for _ in names]}

    def other_fields(self, fields):
        """The same names, or some of them, or others too, over other types."""
        kids = dict(zip(fields["names"], fields["kids"]))
        names = set(kids)
        if self.rng.random() < 0.5:
            names = {name for name in sorted(names) if self.rng.random() < 0.75}
            names.add(self.rng.choice(self.trees.names.words))
        names = sorted(names)
        return {"names": names, "kids": [self.partner(kids[name]) if name in kids
                                         else self.any_type() for name in names]}

    def objects(self):
        self.new_var()
        one = self.fields()
        two = self.other_fields(one)
        a, b = [self.plant(self.trees.kind("Object", [self.trees.old(kid) for kid in f["kids"]])
                           | {"names": f["names"]}) for f in (one, two)]
        self.unify(a, b)

    def closures(self):
        """Equal numbers, and parameter counts that differ half of the time."""
        one, two = self.list_pair()
        if self.rng.random() < 0.3:
            two = two + [self.any_type()]
        ret = self.any_type()
        pair = []
        for kids in (one + [ret], two + [self.partner(ret)]):
            tree = self.trees.kind("Closure", [self.trees.old(kid) for kid in kids])
            pair.append(self.plant(tree | {"number": 5, "inv": 0}))
        self.unify(pair[0], flip(pair[1], self.rng.random() < 0.2))

    def duals(self):
        """A struct or union against one of the same record over inverted children."""
        kind = self.rng.choice(["Struct", "Union"])
        leaves = ["Never", "Param", "Key", "Fn", "Nil"]
        kids = [self.trees.var() if self.rng.random() < 0.5
                else self.trees.leaf_kind(self.rng.choice(leaves)) for _ in range(2)]
        one = self.trees.kind(kind, kids) | {"inv": 0}
        two = one | {"kids": [self.trees.inverse(kid) for kid in kids]}
        if self.rng.random() < 0.4:
            two = self.trees.loosened(two)
        env = {}
        a, b = self.plant(one, env), self.plant(two, env)
        self.unify(a, flip(b, self.rng.random() < 0.7))

    def bind_inverted(self):
        """A variable becomes the root of a kind's inverse, so that the root's state is inverted."""
        kind = self.of_kinds("Param") or self.with_kind(lambda kind: True)
        if kind:
            self.unify_as_given(flip(kind), self.new_var())

    def merge_remembered(self):
        """Binds a variable to the remembered error or nil, so that it is no root any more."""
        remembered = self.do(self.rng.choice(["error", "nil", "nil"]))["type"]
        var = self.turned(self.new_var())
        self.unify_as_given(*self.rng.choice([(remembered, var), (var, remembered)]))

    def chain(self):
        """Merges of equal sizes, so that a path has two parents, and a call that meets it."""
        made = self.do("new_vars", span=self.rng.choice(SPANS), count=4)["types"]
        for a, b in ((0, 1), (2, 3), (1, 3)):
            self.unify_as_given(self.turned(made[a]), self.turned(made[b]))
        name = self.rng.choice(["find", "find_mut", "show", "force_kind", "unify"])
        if name == "unify":
            self.unify(self.turned(made[0]), self.any_type())
        else:
            self.do(name, type=self.turned(made[0]))

    def unify_types(self):
        a, b = self.list_pair()
        self.do("unify_types", a=a, b=b, inv=self.rng.randrange(2))

    def unify_objects(self):
        a = self.fields()
        b = self.other_fields(a)
        a, b = [{**f, "names": [self.trees.place(name) for name in f["names"]]} for f in (a, b)]
        self.do("unify_objects", a=a, b=b, inv=self.rng.randrange(2))

    def impl_type(self, types):
        if self.rng.random() < 0.15:
            return {"is": "error"}
        return {"is": "trait", "trait": self.rng.choice(self.traits), "types": types}

    def unify_impl_type(self):
        a, b = self.list_pair()
        a, b = self.impl_type(a), self.impl_type(b)
        if "trait" in a and "trait" in b and self.rng.random() < 0.6:
            b["trait"] = a["trait"]
        self.do("unify_impl_type", a=a, b=b)

    def unify_fn_sig(self):
        a, b = self.list_pair()
        if self.rng.random() < 0.25:
            a = a + [self.any_type()]
        ret = self.any_type()
        self.do("unify_fn_sig", a={"params": a, "ret": ret},
                b={"params": b, "ret": self.partner(ret)})
