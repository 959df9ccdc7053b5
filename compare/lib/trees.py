"""Random trees of kinds, what can be done to them, and how they are made in a store.

A tree is a dict with `is` and `inv`: a `var` has a key, an `old` a type that the store has
already, a `kind` the kind's parts with trees as kids. Names are byte strings here; making a tree
chooses for each a place in the texts, so that equal names mostly lie at different places."""

from lib.store import flip, make_kind, weight

LEAVES = ["Param", "Fn", "Key", "Never", "Default", "Error", "Nil"]
BRANCHES = ["Tuple", "Object", "Opaque", "Struct", "Enum", "Union", "Closure", "Ref", "IfConst"]
SORTS = {"Opaque": [0], "Struct": [1], "Enum": [2], "Union": [3], "Fn": [4, 7], "IfConst": [5]}
PARAM_NUMBERS = [0, 0, 0, 0, 1, 1, 1, 1, 2, 2, 3, 3, 9, 4294967295]
CLOSURE_NUMBERS = [0, 0, 0, 1, 4294967295]
SPANS = [0, 1, 5, 17, 300, 70000, 4294967294, 4294967295]


class Names:
    """The words of the rule text, with every place of the same bytes in either text."""

    def __init__(self, texts):
        self.words = sorted(set(bytes(texts[0]).split()))
        self.places = {word: self.find(texts, word) for word in self.words}

    @staticmethod
    def find(texts, word):
        return [{"text": text, "start": start, "len": len(word)}
                for text in (0, 1) for start in range(len(texts[text]))
                if bytes(texts[text][start:start + len(word)]) == word]


class Trees:
    def __init__(self, rng, chart):
        self.rng = rng
        self.records = chart["records"]
        self.names = Names(chart["texts"])
        self.taste = {}

    def new_taste(self):
        """Each case likes some kinds better than others."""
        self.taste = {kind: self.rng.choice([0.3, 1, 1, 4])
                      for kind in LEAVES + BRANCHES + ["Var", "Old"]}
        self.taste["Var"] *= 2.5
        self.taste["Old"] *= 1.5

    def liked(self, kinds):
        return self.rng.choices(kinds, [self.taste[kind] for kind in kinds])[0]

    def some_names(self, count):
        return sorted(self.rng.sample(self.names.words, count))

    def place(self, name):
        return None if name is None else self.rng.choice(self.names.places[name])

    def record(self, kind):
        return self.rng.choice([place for place, record in enumerate(self.records)
                                if record["sort"] in SORTS[kind]])

    def inv(self):
        return self.rng.randrange(2)

    # Making trees

    def var(self, keys=3):
        return {"is": "var", "key": self.rng.randrange(keys), "inv": self.inv()}

    def old(self, t):
        return {"is": "old", "type": t, "inv": 0}

    def leaf(self, olds):
        kind = self.liked(LEAVES + ["Var"] + (["Old"] if olds else []))
        if kind == "Var":
            return self.var()
        if kind == "Old":
            return self.old(self.rng.choice(olds))
        return self.leaf_kind(kind)

    def leaf_kind(self, kind):
        if kind == "Nil":
            return self.kind("Tuple", [])
        return self.kind(kind, [])

    def kind(self, kind, kids):
        """A kind over these kids, with numbers and names that it may have."""
        number, flex, names = 0, 0, []
        if kind in SORTS:
            number = self.record(kind)
        elif kind == "Param":
            number, names = self.rng.choice(PARAM_NUMBERS), self.some_names(1)
        elif kind == "Key":
            names = self.some_names(1)
        elif kind == "Object":
            names = self.some_names(len(kids))
        elif kind == "Closure":
            number, flex = self.rng.choice(CLOSURE_NUMBERS), self.rng.randrange(4)
            names = [self.rng.choice(self.names.words + [None] * 6) for _ in kids[1:]]
        return {"is": "kind", "kind": kind, "number": number, "flex": flex, "names": names,
                "kids": kids, "inv": self.inv()}

    def width(self, kind):
        if kind in ("Ref", "IfConst"):
            return 1 if kind == "Ref" else 2
        return self.rng.choice([1 if kind == "Closure" else 0, 1, 1, 2, 2, 3])

    def branch(self, olds, depth):
        kind = self.liked(BRANCHES)
        kids = [self.tree(olds, depth - 1) for _ in range(self.width(kind))]
        return self.kind(kind, self.maybe_nil_last(kind, kids))

    def maybe_nil_last(self, kind, kids):
        """An IfConst's or Closure's last child is often nil: their texts then end early."""
        if kind in ("IfConst", "Closure") and self.rng.random() < 0.35:
            return kids[:-1] + [self.leaf_kind("Nil")]
        return kids

    def tree(self, olds, depth):
        if depth == 0 or self.rng.random() < 0.45:
            return self.leaf(olds)
        return self.branch(olds, depth)

    # Turning trees into others

    def self_dual(self, tree):
        return tree["kind"] in ("Tuple", "Object", "IfConst", "Default", "Error") or (
            tree["kind"] in ("Struct", "Union") and self.records[tree["number"]]["flag"] == 1)

    def inverse(self, tree):
        """The inverse tree; for a self-dual kind by its kids as often as by its mark."""
        if tree["is"] == "kind" and self.self_dual(tree) and self.rng.random() < 0.6:
            return {**tree, "kids": [self.inverse(kid) for kid in tree["kids"]]}
        return {**tree, "inv": tree["inv"] ^ 1}

    def at_random(self, tree, change):
        """The tree with one random part of it changed."""
        if tree["is"] == "kind" and tree["kids"] and self.rng.random() < 0.75:
            kids = list(tree["kids"])
            place = self.rng.randrange(len(kids))
            kids[place] = self.at_random(kids[place], change)
            return {**tree, "kids": kids}
        return change(tree)

    def loosened(self, tree):
        """One part replaced by a variable."""
        return self.at_random(tree, lambda part: self.var(5))

    def spoiled(self, tree, olds):
        """One part that mostly no longer agrees."""
        return self.at_random(tree, lambda part: self.spoil(part, olds))

    def spoil(self, part, olds):
        way = self.rng.randrange(6)
        if way == 0:
            return self.leaf_kind("Error")
        if way == 1 or part["is"] != "kind":
            return {**part, "inv": part["inv"] ^ 1}
        if way == 2:
            return self.leaf(olds)
        if way == 3 and part["kind"] in ("Tuple", "Opaque", "Struct", "Enum", "Union"):
            return {**part, "kids": part["kids"][:-1] if part["kids"] else [self.leaf(olds)]}
        if way == 4 and part["kind"] == "Closure":
            return {**part, "names": part["names"] + [None], "kids": [self.leaf(olds)] + part["kids"]}
        # The same kind with numbers and names of its own.
        return {**self.kind(part["kind"], part["kids"]), "inv": part["inv"]}

    # Making a tree in a store

    def plant(self, store, tree, env):
        """Makes the tree's nodes, kids first; `env` holds the variables made so far."""
        return flip(self.plant_part(store, tree, env), tree["inv"])

    def plant_part(self, store, tree, env):
        if tree["is"] == "old" and weight(store.state, tree["type"]) <= 20:
            return tree["type"]
        if tree["is"] == "old":
            return self.new_var(store)
        if tree["is"] == "var":
            if tree["key"] not in env:
                env[tree["key"]] = self.new_var(store)
            return env[tree["key"]]
        kids = [self.plant(store, kid, env) for kid in tree["kids"]]
        return self.make(store, tree, kids)

    def new_var(self, store):
        return store.do("new_var", span=self.rng.choice(SPANS))["type"]

    def make(self, store, tree, kids):
        kind, short = tree["kind"], self.rng.random() < 0.5
        if short and kind in ("Struct", "Union"):
            name = "new_struct" if kind == "Struct" else "new_union"
            return store.do(name, record=tree["number"], kids=kids)["type"]
        if short and kind == "Error":
            return store.do("error")["type"]
        if short and kind == "Tuple" and not kids:
            return store.do("nil")["type"]
        names = [self.place(name) for name in tree["names"]]
        return store.do("new", kind=make_kind(kind, tree["number"], tree["flex"], names,
                                              kids))["type"]
