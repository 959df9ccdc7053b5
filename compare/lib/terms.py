"""JSON cases as terms of the definitions: calls, answers and stores. Names in answers are bytes, since the Rust keeps no places."""

ROOM = "200 800"  # nodes and children of every store here
LIST = 255        # room of an answer's list
MARKS = 128       # marks lent to find_related; more than any case has nodes
KINDS = ["Param", "Tuple", "Object", "Opaque", "Struct", "Enum", "Union", "Fn", "Closure", "Ref", "Key",
         "IfConst", "Never", "Default", "Error"]


def bool_(b):
    return "true" if b else "false"


def list_(items):
    return "(" + " ∷ ".join(list(items) + ["[]"]) + ")"


def ty(t):
    return f"(ty {bool_(t['inv'])} {t['node']})"


def tys(ts):
    return list_(ty(t) for t in ts)


def option(value, form):
    return "none" if value is None else f"(some {form(value)})"


def name(n):
    return f"(name {n['text']} {n['start']} {n['len']})"


def names(ns):
    return list_(option(n, name) for n in ns)


def numbers(ns):
    return list_(str(n) for n in ns)


def new_kind(k):
    return (f"(record {{ code = {KINDS.index(k['kind'])}; number = {k['number']}; flex = {k['flex']}; "
            f"names = {names(k['names'])}; kids = {tys(k['kids'])} }})")


def fields(f):
    return f"(record {{ names = {names(f['names'])}; types = {tys(f['kids'])} }})"


def impl(i):
    return "Error" if i["is"] == "error" else f"(Trait {i['trait']} {tys(i['types'])})"


def marks(nodes):
    return numbers(1 if n in set(nodes) else 0 for n in range(MARKS))


BUFFER = "(replicate 4096 0)"

# each call's term, from its arguments; `source` names the source's store
CALLS = {
    "new": lambda a, s: f"make (new {new_kind(a['kind'])})",
    "new_var": lambda a, s: f"make (new_var {a['span']})",
    "new_vars": lambda a, s: f"make (new_vars {a['span']} {a['count']} {LIST})",
    "new_struct": lambda a, s: f"make (new_struct {a['record']} {tys(a['kids'])})",
    "new_union": lambda a, s: f"make (new_union {a['record']} {tys(a['kids'])})",
    "error": lambda a, s: "make error",
    "nil": lambda a, s: "make nil",
    "unify": lambda a, s: f"unify {ty(a['a'])} {ty(a['b'])}",
    "unify_types": lambda a, s: f"later (unify_types {tys(a['a'])} {tys(a['b'])} {bool_(a['inv'])})",
    "unify_objects": lambda a, s: f"later (unify_objects {fields(a['a'])} {fields(a['b'])} {bool_(a['inv'])})",
    "unify_impl_type": lambda a, s: f"later (unify_impl_type {impl(a['a'])} {impl(a['b'])})",
    "unify_fn_sig": lambda a, s: (f"later (unify_fn_sig {tys(a['a']['params'])} {ty(a['a']['ret'])} "
                                  f"{tys(a['b']['params'])} {ty(a['b']['ret'])})"),
    "force_kind": lambda a, s: f"force_kind {ty(a['type'])}",
    "finish_inference": lambda a, s: "later finish_inference",
    "finish_inference_where": lambda a, s: f"later (finish_where {numbers(a['bytes'])})",
    "find": lambda a, s: f"read (find {ty(a['type'])})",
    "find_mut": lambda a, s: f"read (find_mut {ty(a['type'])})",
    "self_inverse": lambda a, s: f"later (self_inverse {ty(a['type'])} {bool_(a['param'])})",
    "is_nil": lambda a, s: f"later (is_nil {ty(a['type'])})",
    "get_mod": lambda a, s: f"later (get_mod {ty(a['type'])})",
    "approx_eq": lambda a, s: f"later (approx_eq {impl(a['a'])} {impl(a['b'])})",
    "find_related": lambda a, s: f"later (find_related {ty(a['type'])} {marks(a['marks'])})",
    "show": lambda a, s: f"later (show {ty(a['type'])} {BUFFER})",
    "show_impl_type": lambda a, s: f"later (show_impl_type {impl(a['impl'])} {BUFFER})",
    "import": lambda a, s: f"import (reads {s}) {tys(a['types'])} {option(a['params'], tys)} {LIST}",
    "export": lambda a, s: f"read (export {ROOM} true {tys(a['types'])} {LIST})",
}


def call(c, source):
    return CALLS[c["call"]](c["args"], source)


def kind(k):
    return (f"(record {{ code = {KINDS.index(k['kind'])}; number = {k['number']}; dual = {bool_(k['flag'])}; flex = {k['flex']}; "
            f"names = {list_(option(n, numbers) for n in k['names'])}; kids = {tys(k['kids'])} }})")


def state(s):
    if s["is"] == "unknown":
        return f"(unknown {s['span']})"
    if s["is"] == "failed":
        return "failed"
    return f"(known {bool_(s['inv'])} {kind(s['kind'])})"


def node(n):
    return f"child {ty(n['type'])}" if n["is"] == "child" else f"root {state(n['state'])} {n['size']}"


def store(s):
    return (f"(record {{ nodes = {list_(node(n) for n in s['nodes'])}; error = {option(s['error'], ty)}; "
            f"nil = {option(s['nil'], ty)}; reports = {s['reports']} }})")


def mod(a):
    return {"none": "none_mod", "error": "error_mod", "def": f"(mod_of {a['def']})"}[a["mod"]]


ANSWERS = {
    "type": lambda a: f"type {ty(a['type'])}",
    "types": lambda a: f"types {tys(a['types'])}",
    "unify": lambda a: f"answer {a['unify']}",
    "bool": lambda a: f"flag {bool_(a['bool'])}",
    "done": lambda a: "nothing",
    "mod": lambda a: f"mod_is {mod(a)}",
    "nodes": lambda a: f"marked {marks(a['nodes'])}",
    "text": lambda a: f"shown {numbers(a['bytes'])}",
    "forced": lambda a: f"forced {bool_(a['inv'])} {kind(a['kind'])} {option(a['report'], str)}",
    "export": lambda a: f"exported {tys(a['types'])} {store(a['store'])}",
}


def answer(a):
    return ANSWERS[a["is"]](a)


def record(r):
    return (f"record {{ sort = {r['sort']}; name = {name(r['name'])}; path = {name(r['path'])}; def = {r['def']}; "
            f"dual = {r['flag']}; trait = {r['trait']} }}")


def env(c):
    return (f"record\n  {{ records = {list_(record(r) for r in c['records'])}\n  ; fn_trait = {c['fn_trait']}\n"
            f"  ; sigils = {list_(name(n) for n in c['sigils'])}\n"
            f"  ; texts = record {{ rule = {numbers(c['texts'][0])}; chart = {numbers(c['texts'][1])} }} }}")
