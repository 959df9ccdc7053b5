"""Counts what the cases reach: calls with their answers, kinds, states and situations."""

from collections import Counter

from lib.store import known, reached, root, typ


def depth(state, node):
    steps = 0
    while state["nodes"][node]["is"] == "child":
        node, steps = state["nodes"][node]["type"]["node"], steps + 1
    return steps


def roots(state):
    return sum(node["is"] == "root" for node in state["nodes"])


class Coverage:
    def __init__(self):
        self.calls, self.kinds, self.nodes = Counter(), Counter(), Counter()
        self.situations = Counter()

    def watch(self, call, before, after):
        name, answer = call["call"], call["answer"]
        self.calls[f"{name}: {self.label(answer)}"] += 1
        if name == "new":
            self.kinds[call["args"]["kind"]["kind"]] += 1
        if name == "unify":
            self.situations[self.pair(call, before)] += 1
        if answer["is"] == "unify" and answer["unify"] != "Success" and roots(after) < roots(before):
            self.situations[f"{answer['unify']} that kept bindings"] += 1
        if name in ("find", "find_mut"):
            steps = depth(before, call["args"]["type"]["node"])
            self.situations[f"{name} over {steps} parents"] += 1
        if name == "export":
            for which in ("error", "nil"):
                self.exported(which, before, answer["store"])

    @staticmethod
    def label(answer):
        sort = answer["is"]
        if sort == "forced":
            reported = "reported" if answer["report"] is not None else "not reported"
            return f"{answer['kind']['kind']}, inverted {answer['inv']}, {reported}"
        return str(answer[sort]) if sort in ("unify", "bool", "mod") else sort

    def pair(self, call, state):
        """What met what in a unify from outside, and the answer."""
        a, b = root(state, call["args"]["a"]), root(state, call["args"]["b"])
        word = call["answer"]["unify"]
        if a["node"] == b["node"]:
            return f"same node, inversions {'agree' if a == b else 'differ'}: {word}"
        kinds = known(state, a), known(state, b)
        if None in kinds:
            both = "both" if kinds == (None, None) else "one"
            return f"{both} without a kind: {word}"
        inv = sum(t["inv"] ^ state["nodes"][t["node"]]["state"]["inv"] for t in (a, b)) == 1
        names = [kind["kind"] for kind in kinds]
        what = names[0] if names[0] == names[1] else "different kinds"
        if "Error" in names:
            what = "an Error"
        if what in ("Struct", "Union"):
            what += f" with flag {kinds[0]['flag']}"
        return f"{what}, inversions {'differ' if inv else 'agree'}: {word}"

    def imported(self, call, source):
        """What an import met in its source."""
        types, params = call["args"]["types"], call["args"]["params"]
        nodes = reached(source, types)
        kinds = [known(source, typ(node)) for node in nodes]
        listed = "no list" if params is None else "a list"
        replaced = any(kind and kind["kind"] == "Param" for kind in kinds)
        self.situations[f"import with {listed}, {'' if replaced else 'no '}Param reached"] += 1
        if any(source["nodes"][node]["state"]["is"] == "failed" for node in nodes):
            self.situations["import of a failed node"] += 1
        if len({root(source, t)["node"] for t in types}) < len(types):
            self.situations["import of one root twice"] += 1

    def exported(self, which, before, fresh):
        t = before[which]
        if t is None:
            self.situations[f"export without {which}"] += 1
            return
        state = "root" if before["nodes"][t["node"]]["is"] == "root" else "merged"
        self.situations[f"export with {which} {state}, inverted {fresh[which]['inv']}"] += 1

    def end(self, case):
        """The stores as they are in the end, and what the imports met in the source."""
        for call in case["main"]["calls"]:
            if call["call"] == "import":
                self.imported(call, case["source"]["store"])
        for store in (case["source"]["store"], case["main"]["store"]):
            for number, node in enumerate(store["nodes"]):
                self.nodes[self.node(store, number, node)] += 1

    @staticmethod
    def node(store, number, node):
        if node["is"] == "child":
            inverted = "inverted " if node["type"]["inv"] else ""
            return f"child, {inverted}over {min(depth(store, number), 3)} parents"
        state = node["state"]
        if state["is"] != "known":
            return f"root, {state['is']}"
        return f"root, {'inverted ' if state['inv'] else ''}{state['kind']['kind']}"

    def show(self):
        for title, counts in (("calls and answers", self.calls), ("kinds given to new", self.kinds),
                              ("nodes in the end", self.nodes), ("situations", self.situations)):
            print(f"\n{title}")
            for what, count in sorted(counts.items()):
                print(f"{count:8}  {what}")
