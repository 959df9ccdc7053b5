"""Random cases: a source store that is finished first, then a main store that may import."""

from lib.moves import MAIN_ONLY, WEIGHTS, Moves
from lib.store import Store
from lib.trees import Trees

# A case ends early when a tree in its store has more nodes than this, counted with repetition.
HEAVIEST = 120
# What cases that are made for imports and exports like better: Params bound to variables, also inverted, remembered types, failed nodes.
LIKED = {"import": 8, "export": 6, "over_params": 4, "bind_param": 8, "remember": 4, "merge_remembered": 4, "force": 3}


class Cases:
    def __init__(self, oracle, rng, watch, transfers=False):
        self.oracle, self.rng, self.watch = oracle, rng, watch
        self.transfers = transfers
        self.trees = Trees(rng, oracle.chart)

    def case(self):
        self.oracle.send("case")
        source = Store(self.oracle, self.watch)
        with_source = self.transfers or self.rng.random() < 0.6
        if with_source:
            self.grow(source, None, self.rng.randint(3, 12))
        self.oracle.send("main")
        main = Store(self.oracle, self.watch)
        self.grow(main, source, self.rng.randint(6, 22))
        return {"note": "", "source": source.finished(), "main": main.finished()}

    def grow(self, store, source, length):
        moves = Moves(self.rng, self.trees, self.oracle.chart, store, source)
        weights = self.weights(source)
        self.trees.new_taste()
        # Something to work with first.
        moves.take(self.rng.choice(["twins", "build", "vars", "leaf"] if source else
                                   ["twins", "over_params", "over_params", "over_params"]))
        while len(store.calls) < length and moves.heaviest() <= HEAVIEST:
            moves.take(self.rng.choices(list(weights), list(weights.values()))[0])
        if source and source.nodes and not any(c["call"] == "import" for c in store.calls):
            moves.take("import")

    def weights(self, source):
        """Each case likes some moves better than others. A source is mostly built and bound."""
        weights = {name: weight * self.rng.choice([0.2, 1, 1, 3])
                   for name, weight in WEIGHTS.items()}
        if self.transfers:
            weights = {name: weight * LIKED.get(name, 1) for name, weight in weights.items()}
        if source is None:
            weights.update({name: 0 for name in MAIN_ONLY})
            for name, factor in (("build", 3), ("over_params", 10), ("force", 3),
                                 ("bind_inverted", 4)):
                weights[name] *= factor
        elif not source.nodes:
            weights["import"] = 0
        return weights
