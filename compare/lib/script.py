"""Cases as a list of calls for crates/run_calls, and the lines that the Rust's answers make it write."""

from lib.transfers import exports, imports, needs

KINDS = ["Param", "Tuple", "Object", "Opaque", "Struct", "Enum", "Union", "Fn", "Closure", "Ref", "Key",
         "IfConst", "Never", "Default", "Error"]
NODES, CHILDREN = 200, 800  # room of every store here
INVERSE = 2 ** 31           # a type's number: its node's, and this if it is inverted
LIST = 255                  # room for an answer's list

# The calls' numbers in crates/run_calls.
OPS = {"rule": 0, "text": 1, "chart": 2, "beside": 3, "lend": 4, "poke": 5,
       "case": 7, "words": 8, "swap": 9, "open": 10, "reset": 11, "new": 12,
       "new_struct": 13, "new_union": 14, "new_var": 15, "new_vars": 16, "error": 17, "nil": 18, "force_kind": 19,
       "finish_inference": 20, "finish_inference_where": 21, "open_names": 22, "name_state": 23, "return_to": 24, "drop_name": 25, "find": 30, "find_mut": 31, "node": 32, "child": 33,
       "child_name": 34, "figures": 35, "is_nil": 36, "self_inverse_plain": 37, "self_inverse": 38, "get_mod": 39, "find_related": 40, "store": 41, "unify": 50, "unify_types": 51,
       "unify_objects": 52, "unify_fn_sig": 53, "unify_impl_type": 54, "approx_eq": 55, "import": 60, "export": 61,
       "show": 70, "show_impl_type": 71, "show_part": 72, "show_impl_type_part": 73}
HEAD_WORDS = 8


def names_words(nodes, children):
    """How long a names buffer is: two capacities, eight places, each a name, a header and a state's words."""
    return 2 + 8 * (256 + HEAD_WORDS + 12 * nodes + 4 * children)


NAMES = names_words(NODES, CHILDREN)
NODE_ROOM, CHILD_ROOM = 2, 3  # the header's words for the capacities
ERROR_KIND = "14 0 0 0"


def line(op, *numbers):
    return " ".join(map(str, [OPS[op], len(numbers), *numbers])) + f" # {op}\n"


def word(t):
    return t["node"] + INVERSE * t["inv"]


def words(ts):
    return [word(t) for t in ts]


def place(n):
    return [0, 0, 0] if n is None else [n["text"], n["start"], n["len"]]


def entries(names, kids):
    """Four numbers for each child; a Closure's return has no name."""
    names = list(names) + [None] * (len(kids) - len(names))
    return [n for name, kid in zip(names, kids) for n in [word(kid), *place(name)]]


def new(kind):
    own = kind["kind"] in ("Param", "Key")
    name = place(kind["names"][0] if own else None)
    return [KINDS.index(kind["kind"]), kind["number"], kind["flex"], *name,
            *entries([] if own else kind["names"], kind["kids"])]


def impl(i):
    return ([1, 0], []) if i["is"] == "error" else ([0, i["trait"]], words(i["types"]))


def impls(a, b):
    (p, xs), (q, ys) = impl(a), impl(b)
    return [*p, *q, len(xs), *xs, *ys]


def lists(inv, xs, ys):
    return [inv, len(xs), *xs, *ys]


# For each call, its numbers.
ARGS = {
    "new": lambda a: new(a["kind"]),
    "new_struct": lambda a: [a["record"], *words(a["kids"])],
    "new_union": lambda a: [a["record"], *words(a["kids"])],
    "new_var": lambda a: [a["span"]],
    "new_vars": lambda a: [a["span"], a["count"], LIST],
    "finish_inference_where": lambda a: a["bytes"],
    "self_inverse": lambda a: [word(a["type"]), a["param"]],
    "find_related": lambda a: [word(a["type"]), *[int(n in a["marks"]) for n in range(NODES)]],
    "unify": lambda a: [word(a["a"]), word(a["b"])],
    "unify_types": lambda a: lists(a["inv"], words(a["a"]), words(a["b"])),
    "unify_objects": lambda a: lists(a["inv"], entries(a["a"]["names"], a["a"]["kids"]),
                                     entries(a["b"]["names"], a["b"]["kids"])),
    "unify_fn_sig": lambda a: [word(a["a"]["ret"]), word(a["b"]["ret"]), len(a["a"]["params"]),
                               *words(a["a"]["params"]), *words(a["b"]["params"])],
    "unify_impl_type": lambda a: impls(a["a"], a["b"]),
    "approx_eq": lambda a: impls(a["a"], a["b"]),
}
TYPE = lambda a: [word(a["type"])] if "type" in a else []


def typ(t):
    return "none" if t is None else ("~" if t["inv"] else "") + str(t["node"])


def name(n):
    return "" if n is None else "|" + bytes(n).decode() + "|"


def kind(k):
    own = k["kind"] in ("Param", "Key")
    names = [] if own else k["names"]
    names = names + [None] * (len(k["kids"]) - len(names))
    parts = [str(KINDS.index(k["kind"])), str(k["number"]), str(k["flag"]), str(k["flex"])]
    parts += [name(k["names"][0])] if own else []
    return " ".join(parts + [typ(kid) + name(n) for kid, n in zip(k["kids"], names)])


def state(s):
    if s["is"] == "known":
        return "known " + ("~" if s["inv"] else "") + kind(s["kind"])
    return f"unknown {s['span']}" if s["is"] == "unknown" else "failed"


def node(n):
    return f"child {typ(n['type'])}" if n["is"] == "child" else f"root {n['size']} {state(n['state'])}"


def store(s, children, room=(NODES, CHILDREN)):
    head = (f"nodes {len(s['nodes'])} of {room[0]}, children {children} of {room[1]}, error {typ(s['error'])}, "
            f"nil {typ(s['nil'])}, reports {s['reports']}\n")
    return head + "".join(f"  {node(n)}\n" for n in s["nodes"])


def forced(a):
    text = "known " + ("~" if a["inv"] else "") + kind(a["kind"])
    return text if a["report"] is None else f"{text} reported {a['report']}"


ANSWERS = {
    "type": lambda a: "=" + typ(a["type"]),
    "types": lambda a: "types" + "".join(" " + typ(t) for t in a["types"]),
    "unify": lambda a: a["unify"],
    "bool": lambda a: str(a["bool"]),
    "done": lambda a: "done",
    "mod": lambda a: f"def {a['def']}" if a["mod"] == "def" else a["mod"],
    "nodes": lambda a: "marked" + "".join(f" {n}" for n in a["nodes"]),
    "forced": forced,
}


def bars(text):
    """Bytes between bars; a cut may part a character's bytes."""
    return "|" + text.decode("utf-8", "surrogateescape") + "|"


def printed(call):
    """A printer and its second form, each into a buffer that is longer than the text, and into one that is a byte too short."""
    op, text, said, wrote = call["call"], bytes(call["answer"]["bytes"]), "", ""
    args = [word(call["args"]["type"])] if op == "show" else [n for part in impl(call["args"]["impl"]) for n in part]
    long, short = len(text) + 3, len(text) - 1
    for room, whole, part in ((long, f"length {len(text)} {bars(text + b'...')}", f"code 0 {bars(text)}"),
                              (short, f"refused 7 {bars(text[:-1])}", f"code 7 {bars(text[:-1])}")):
        said += line(op, room, *args) + line(op + "_part", room, *args)
        wrote += f"{whole}\n{part}\n"
    return said, wrote


def answer(a):
    return ANSWERS[a["is"]](a) + "\n"


class Made:
    """How many nodes and children a store has made, and which types it remembers."""

    def __init__(self):
        self.nodes, self.children, self.remembered = 0, 0, set()

    def add(self, call, source):
        name, args = call["call"], call["args"]
        if name == "reset":
            self.__init__()
        elif name in ("error", "nil"):
            self.nodes += name not in self.remembered
            self.remembered.add(name)
        elif name == "import":
            more, kids = needs(source, args["types"], args["params"] is not None)
            self.nodes, self.children = self.nodes + more, self.children + kids
        elif name == "new_vars":
            self.nodes += args["count"]
        elif name.startswith("new"):
            self.nodes += 1
            self.children += len(args["kind"]["kids"] if name == "new" else args.get("kids", []))


def rooms(nodes, children):
    """Other capacities, by the header's words."""
    return line("poke", 0, NODE_ROOM, nodes) + line("poke", 0, CHILD_ROOM, children)


def importing(call, source, made):
    """The import with exactly enough of all, and before it with one less of each."""
    types, answered = call["args"]["types"], answer(call["answer"])
    said, wrote = "", ""
    for room, entries, out, code in imports(source, types, call["args"]["params"], made.nodes, made.children):
        said += rooms(*room) + line("import", out, int(entries is not None), len(types), *words(types), *words(entries or []))
        wrote += answered if code is None else f"refused {code}\n"
    return said + rooms(NODES, CHILDREN), wrote


def exporting(call):
    """The same for an export, and every node of the fresh store."""
    types, fresh = call["args"]["types"], call["answer"]["store"]
    said, wrote = "", ""
    for room, out, lent, code in exports(fresh, types):
        said += line("export", *room, out, HEAD_WORDS, *lent, *words(types))
        wrote += f"refused {code}\n" if code else ANSWERS["types"](call["answer"]) + "\n" + store(fresh, room[1], room)
    return said, wrote


def chart(c):
    records = [n for r in c["records"] for n in
               [r["sort"], *place(r["name"]), *place(r["path"]), r["def"], r["flag"], r["trait"]]]
    sigils = [n for s in c["sigils"] for n in place(s)]
    return (line("rule", *c["texts"][0]) + line("text", *c["texts"][1]) + line("chart", *records)
            + line("beside", c["fn_trait"], *sigils) + (line("lend", HEAD_WORDS, NODES * 12, CHILDREN * 4, NAMES) + line("swap")) * 2)


def run(number, part, source):
    """One store's calls, and what they write; `source` is what imports read, as it is in the end."""
    said, wrote, made = line("case", number) + line("open", NODES, CHILDREN), f"case {number}\ndone\n", Made()
    if any(call["call"] == "reset" for call in part["calls"]):
        said, wrote = said + line("open_names", NODES, CHILDREN), wrote + "done\n"
    for call in part["calls"]:
        if call["call"] in ("show", "show_impl_type"):
            more = printed(call)
            said, wrote = said + more[0], wrote + more[1]
            continue
        if call["call"] == "import":
            more = importing(call, source, made)
        elif call["call"] == "export":
            more = exporting(call)
        else:
            more = line(call["call"], *ARGS.get(call["call"], TYPE)(call["args"])), answer(call["answer"])
        said, wrote = said + more[0], wrote + more[1]
        made.add(call, source)
    return said + line("store"), wrote + store(part["store"], made.children)


def script(data):
    """The source's store stays at hand as the other one while the main store's calls run."""
    said, wrote = chart(data["chart"]), ""
    for i, case in enumerate(data["cases"]):
        source, main = case["source"], case["main"]
        moved = any(c["call"] == "import" for c in main["calls"])
        if source["calls"] or moved:
            more = run(i, source, None)
            said, wrote = said + more[0], wrote + more[1]
        if main["calls"]:
            more = run(i, main, source["store"])
            turned = line("swap") if moved else ""
            said, wrote = said + turned + more[0] + turned, wrote + more[1]
    return said, wrote
