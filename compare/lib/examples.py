"""The cases that document 01 lists under "Judged by example", and the traps it names. Each case
says what 01 expects, and making the file fails if the Rust answers otherwise."""

from lib.store import Store, flip, make_kind, typ


class Example:
    def __init__(self, oracle, watch):
        self.store = Store(oracle, watch)
        self.names = {}
        text = bytes(oracle.chart["texts"][0])
        for word in text.split():
            self.names[word.decode()] = {"text": 0, "start": text.index(word), "len": len(word)}

    def new(self, kind, *kids, **parts):
        return self.store.do("new", kind=make_kind(kind, kids=kids, **parts))["type"]

    def var(self, span=0):
        return self.store.do("new_var", span=span)["type"]

    def vars(self, count):
        return self.store.do("new_vars", span=7, count=count)["types"]

    def nil(self):
        return self.store.do("nil")["type"]

    def object(self, **fields):
        return self.new("Object", *fields.values(), names=[self.names[name] for name in fields])

    def unify(self, a, b, expected):
        assert self.store.do("unify", a=a, b=b)["unify"] == expected, (a, b, expected)

    def show(self, t, expected):
        answer = bytes(self.store.do("show", type=t)["bytes"]).decode()
        assert answer == expected, (answer, expected)

    def child(self, node, parent):
        assert self.store.nodes[node] == {"is": "child", "type": parent}, self.store.nodes[node]

    def unknown(self, node, size, span):
        state = {"is": "unknown", "span": span}
        assert self.store.nodes[node] == {"is": "root", "size": size, "state": state}

    def root(self, node, size):
        assert self.store.nodes[node]["size"] == size, self.store.nodes[node]


def var_inverse(e):
    """var 0: unify 0, ~0: Failure"""
    e.unify(e.var(), typ(0, 1), "Failure")


def nil_inverse(e):
    """nil 0: unify 0, ~0: Success"""
    e.unify(e.nil(), typ(0, 1), "Success")


def occurs(e):
    """0 var, 1 = (0): unify 0, 1: Failure"""
    e.unify(e.var(), e.new("Tuple", typ(0)), "Failure")


def defaults(e):
    """Default 0 and 1: unify 0, ~1: Failure; 0, ~0: Success"""
    e.new("Default"), e.new("Default")
    e.unify(typ(0), typ(1, 1), "Failure")
    e.unify(typ(0), typ(0, 1), "Success")


def error_never(e):
    """Error against Never: Indeterminate, no merge"""
    e.unify(e.new("Error"), e.new("Never"), "Indeterminate")
    e.root(0, 1), e.root(1, 1)


def var_error(e):
    """var against Error: Success"""
    e.unify(e.var(), e.new("Error"), "Success")


def three_vars(e):
    """vars 0, 1, 2: unify 0, 1 then 1, 2: 0 and 2 are children of 1, size 3"""
    e.vars(3)
    e.unify(typ(0), typ(1), "Success")
    e.unify(typ(1), typ(2), "Success")
    e.child(0, typ(1)), e.child(2, typ(1)), e.root(1, 3)


def failure_keeps(e):
    """0 var, 1 Never, 2 nil, 3 = (1, 0), 4 = (2, 1): unify 3, 4: Failure; 0 is now a child of 1"""
    e.var(), e.new("Never"), e.nil()
    e.unify(e.new("Tuple", typ(1), typ(0)), e.new("Tuple", typ(2), typ(1)), "Failure")
    e.child(0, typ(1))


def objects(e):
    """{a: 0} and {a: 1, b: 1} over vars: Failure; 0 is a child of 1"""
    e.vars(2)
    e.unify(e.object(a=typ(0)), e.object(a=typ(1), b=typ(1)), "Failure")
    e.child(0, typ(1))


def forced(e):
    """0 forced, then unify 0, 1: Unknown again, 1's span"""
    e.var(5), e.var(9)
    assert e.store.do("force_kind", type=typ(0))["report"] == 5
    e.unify(typ(0), typ(1), "Success")
    e.unknown(1, 2, 9), e.child(0, typ(1))


def shown(e):
    """(0) over var 0 shows (?0,); inverted (~?0,)"""
    one = e.new("Tuple", e.var())
    e.show(one, "(?0,)")
    e.show(flip(one), "(~?0,)")


def sheet(e):
    """the lines of sheet: Success, then (?1, ?1)"""
    e.var(), e.var()
    e.unify(e.new("Tuple", typ(0), typ(1, 1)), e.new("Tuple", typ(1, 1), typ(0)), "Success")
    e.show(typ(2, 1), "(?1, ?1)")


def param_names(e):
    """a trap: Params of one number and two names are equal; the staying root keeps its name"""
    a = e.new("Param", number=2, names=[e.names["a"]])
    e.unify(a, e.new("Param", number=2, names=[e.names["foo"]]), "Success")
    e.child(0, typ(1))
    e.show(a, "foo")


def closure_returns(e):
    """runs of different length unify nothing, but a Closure's returns are still unified"""
    e.vars(4)
    a = e.new("Closure", typ(0), typ(1), number=6, names=[None])
    e.unify(a, e.new("Closure", typ(2), typ(2), typ(3), number=6, names=[None, None]), "Failure")
    e.unknown(0, 1, 7), e.child(1, typ(3))


def staying_span(e):
    """the staying root keeps its own span, the first only if its size is larger"""
    for span in (1, 2, 3):
        e.var(span)
    e.unify(typ(0), typ(1), "Success")
    e.unify(typ(1, 1), typ(2), "Success")
    e.unknown(1, 3, 2), e.child(2, typ(1, 1))


def failed_stays(e):
    """the staying root keeps its own failed mark"""
    e.vars(2)
    e.store.do("force_kind", type=typ(1))
    e.unify(typ(0), typ(1), "Success")
    assert e.store.nodes[1]["state"] == {"is": "failed"}


def export_remembered(e):
    """an exported store returns the error and nil types carried over, error first"""
    e.nil(), e.store.do("error"), e.var(3)
    e.unify(typ(0), typ(2, 1), "Success")
    answer = e.store.do("export", types=[typ(1), typ(2)])
    assert answer["store"]["error"] == typ(0) and answer["store"]["nil"] == typ(1, 1)
    assert answer["types"] == [typ(0), typ(1)]


def param_source(e):
    e.new("Param", number=2, names=[e.names["x"]])
    e.new("Ref", typ(0, 1))


def param_main(e):
    """Param 2, three entries: the third, also under another kind and inverted"""
    e.vars(3)
    params = [typ(0), typ(1), typ(2, 1)]
    answer = e.store.do("import", types=[typ(0), typ(1)], params=params)
    assert answer["types"] == [typ(2, 1), typ(3)]
    e.show(typ(3), "&?2")


SINGLE = [var_inverse, nil_inverse, occurs, defaults, error_never, var_error, three_vars,
          failure_keeps, objects, forced, shown, sheet, param_names, closure_returns, staying_span,
          failed_stays, export_remembered]


def nothing(_):
    pass


def example_cases(oracle, watch):
    pairs = [(nothing, main) for main in SINGLE] + [(param_source, param_main)]
    return [example(oracle, watch, source, main) for source, main in pairs]


def example(oracle, watch, source, main):
    oracle.send("case")
    first = Example(oracle, watch)
    source(first)
    oracle.send("main")
    second = Example(oracle, watch)
    main(second)
    return {"note": main.__doc__, "source": first.store.finished(),
            "main": second.store.finished()}
