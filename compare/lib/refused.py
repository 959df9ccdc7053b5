"""Calls that are turned back, with the number that documents 01 and 02 give for each: a list of calls for crates/run_calls, and what it must write.

The chart is chart.json's: record 0 is a trait, 1 a struct without the flag, 4 a union with it, 5 a const, 6 a fn, 9 a struct with it."""

from lib.script import INVERSE, line, names_words

PARAM, TUPLE, OBJECT, STRUCT, CLOSURE, REF, IF_CONST, NEVER = 0, 1, 2, 4, 8, 9, 11, 12
A, AB, B = (0, 0, 1), (0, 2, 2), (0, 5, 1)  # names in the rule text: a, ab, b
NONE = 2 ** 32 - 1
NODES, CHILDREN = 6, 6
NAMES = names_words(NODES, CHILDREN)
LEND = ("lend", [8, NODES * 12, CHILDREN * 4, NAMES], None)


def kind(code, *kids, number=0, flex=0, name=(0, 0, 0)):
    """`new`'s numbers; a kid is a type, or a type and its name."""
    entries = [n for kid in kids for n in (kid if isinstance(kid, tuple) else (kid, 0, 0, 0))]
    return [code, number, flex, *name, *entries]


def named(t, name):
    return (t, *name)


def opening():
    lend = ("lend", [8, NODES * 12, CHILDREN * 4], None)
    return [
        lend,
        ("open", [4097, 0], "refused 1"),
        ("open", [0, 16385], "refused 1"),
        ("open", [NODES + 1, CHILDREN], "refused 1"),
        ("open", [NODES, CHILDREN + 1], "refused 1"),
        ("lend", [7, NODES * 12, CHILDREN * 4], None),
        ("open", [0, 0], "refused 1"),
        ("lend", [10, 49164, 65544], None),
        ("open", [4096, 16384], "done"),
        ("new_vars", [7, 4096, 4096], "types" + "".join(f" {n}" for n in range(4096))),
        ("new_var", [1], "refused 10"),
        lend,
        ("find", [0], "refused 8"),
        ("open", [0, 0], "done"),
        ("new_var", [1], "refused 10"),
        ("error", [], "refused 10"),
        ("new_vars", [1, 0, 0], "types"),
        ("open", [NODES, CHILDREN], "done"),
    ]


def making():
    return [
        ("find", [0], "refused 3"),
        ("new_var", [5], "=0"),
        ("new", kind(15), "refused 4"),
        ("new", kind(15, 9), "refused 3"),
        ("new", kind(REF), "refused 4"),
        ("new", kind(IF_CONST, 0, number=5), "refused 4"),
        ("new", kind(IF_CONST, 0, 0, number=6), "refused 5"),
        ("new", kind(CLOSURE), "refused 4"),
        ("new", kind(CLOSURE, 0, flex=4), "refused 4"),
        ("new", kind(TUPLE, number=1), "refused 4"),
        ("new", kind(TUPLE, named(0, A)), "refused 4"),
        ("new", kind(TUPLE, 0)[:-1], "refused 4"),
        ("new", kind(TUPLE, name=A), "refused 4"),
        ("new", kind(OBJECT, 0), "refused 4"),
        ("new", kind(OBJECT, named(0, B), named(0, A)), "refused 4"),
        ("new", kind(OBJECT, named(0, A), named(0, A)), "refused 4"),
        ("new", kind(OBJECT, named(0, (0, 51, 9))), "refused 4"),
        ("new", kind(OBJECT, named(0, (2, 0, 1))), "refused 4"),
        ("new", kind(STRUCT, number=0), "refused 5"),
        ("new", kind(STRUCT, number=NONE), "refused 5"),
        ("new", kind(STRUCT, *[0] * 256, number=NONE), "refused 4"),
        ("new", kind(STRUCT, *[0] * 256, 1, number=NONE), "refused 3"),
        ("new", kind(TUPLE, *[0] * 255), "refused 11"),
        ("new_struct", [4, 0], "refused 5"),
        ("new_union", [4, *[0] * 7], "refused 11"),
        ("new_union", [4, 0, INVERSE], "=1"),
        ("new_vars", [1, NONE, 0], "refused 10"),
        ("new_vars", [1, 5, 0], "refused 10"),
        ("new_vars", [1, 4, 3], "refused 7"),
        ("nil", [], "=2"),
        ("nil", [], "=2"),
        ("error", [], "=3"),
        ("new", kind(OBJECT, named(0, A), named(INVERSE, AB)), "=4"),
        ("new", kind(NEVER), "=5"),
        ("new", kind(NEVER), "refused 10"),
        ("error", [], "=3"),
    ]


def asking():
    return [
        ("node", [6], "refused 3"),
        ("child", [4, 1], "~0"),
        ("child", [4, 2], "none"),
        ("child_name", [4, 1], "|ab|"),
        ("child_name", [4, NONE], "none"),
        ("child_name", [1, 0], "none"),
        ("is_nil", [2], "1"),
        ("is_nil", [6], "refused 3"),
        ("self_inverse_plain", [1], "0"),
        ("get_mod", [1], "def 17"),
        ("find_related", [4, 0, 0, 0, 0, 0], "refused 7"),
        ("find_related", [4, 0, 0, 0, 0, 0, 0], "marked 0 4"),
        ("find_related", [6, 0], "refused 3"),
        ("force_kind", [6], "refused 3"),
    ]


def joining():
    many = [0] * 256
    return [
        ("unify", [0, 6], "refused 3"),
        ("unify", [INVERSE + 6, 0], "refused 3"),
        ("unify_types", [0, 256, *many, *many], "refused 4"),
        ("unify_types", [0, 256, *many, 6], "refused 3"),
        ("unify_objects", [0, 8, 0, *B, 0, *A], "refused 4"),
        ("unify_objects", [0, 4, 0, *A, 6, 0, 0, 0], "refused 3"),
        ("unify_objects", [0, 3, 0, 0, 0], "refused 4"),
        ("unify_fn_sig", [0, 6, 0], "refused 3"),
        ("unify_fn_sig", [0, 0, 256, *many], "refused 4"),
        ("unify_impl_type", [0, 1, 0, 0, 0], "refused 5"),
        ("unify_impl_type", [1, 0, 0, 1, 0, 6], "refused 3"),
        ("unify_impl_type", [1, 0, 0, 0, 0, 0], "Indeterminate"),
        ("approx_eq", [1, 0, 1, 0, 0], "0"),
        ("approx_eq", [0, 0, 0, 0, 1, 0, 0], "1"),
        ("unify", [0, 5], "Success"),
    ]


def printing():
    """After `joining`: 0 is a child of 5, which is Never; record 8 is the fn trait, whose name is Fn."""
    many = [0] * 256
    return [
        ("show", [4, 4], "refused 7 |{ a:|"),
        ("show", [16, 4], "length 16 |{ a: !, ab: ~! }|"),
        ("show", [3, 6], "refused 3 |...|"),
        ("show_part", [0, 5], "code 7 ||"),
        ("show_part", [1, 5], "code 0 |!|"),
        ("show_part", [3, INVERSE + 6], "code 3 ||"),
        ("show_impl_type", [2, 0, 1, 6], "refused 3 |..|"),
        ("show_impl_type", [2, 0, 1, *many], "refused 4 |..|"),
        ("show_impl_type", [2, 0, 1, 0], "refused 5 |..|"),
        ("show_impl_type", [2, 1, 1, 6], "length 2 |??|"),
        ("show_impl_type", [12, 0, 8, 0, 2, 2], "length 6 |fn !()......|"),
        ("show_impl_type", [12, 0, 8, 0, INVERSE + 2, 0], "length 11 |fn !() -> !.|"),
        ("show_impl_type", [12, 0, 8, 0, 5, 2], "length 12 |Fn[!, !, ()]|"),
        ("show_impl_type", [2, 0, 8], "length 2 |Fn|"),
        ("show_impl_type_part", [1, 1, 0], "code 7 |?|"),
        ("show_impl_type_part", [1, 0, NONE], "code 5 ||"),
    ]


def broken(chart):
    records = [n for r in chart["records"] for n in
               [r["sort"], *place(r["name"]), *place(r["path"]), r["def"], r["flag"], r["trait"]]]
    bad = [8] + records[1:]
    sigils = [n for s in chart["sigils"] for n in place(s)]
    return [
        ("chart", bad, None), ("find", [9], "refused 2"),
        ("chart", records[:-1], None), ("find", [0], "refused 2"),
        ("chart", [], None), ("find", [0], "refused 2"),
        ("beside", [NONE, *sigils], None), ("find", [0], "refused 8"),
        ("chart", records, None), ("beside", [1, *sigils], None), ("find", [0], "refused 2"),
        ("beside", [chart["fn_trait"], *sigils], None), ("find", [0], "=5"),
        ("lend", [8, NODES * 12 - 1, CHILDREN * 4], None), ("unify", [0, 5], "refused 8"),
        ("lend", [0, 0, 0], None), ("reset", [], "refused 8"),
        LEND,
        ("poke", [1, 5 * 12 + 2, 1], None), ("unify", [0, 5], "refused 8"),   # a root's size
        ("poke", [1, 5 * 12 + 2, 2], None), ("poke", [1, 12 + 6, 0], None), ("find", [9], "refused 8"),  # a flag
        ("poke", [1, 12 + 6, 1], None), ("poke", [1, 12 + 1, 1], None), ("poke", [2, 2 * 4, 1], None),
        ("find", [0], "refused 8"),                                           # a child cycle
        ("poke", [2, 2 * 4, INVERSE], None), ("poke", [1, 12 + 1, 0], None), ("find", [0], "=5"),
        ("open_names", [NODES, CHILDREN], "done"), ("reset", [], "done"), ("find", [0], "refused 3"), ("nil", [], "=0"),
    ]


def source():
    """A failed variable, a Param 2, a variable that is its inverse, a tuple over all three, an error."""
    return [
        ("swap", [], None),
        ("lend", [8, NODES * 12, CHILDREN * 4], None),
        ("open", [NODES, CHILDREN], "done"),
        ("new_var", [5], "=0"),
        ("new", kind(PARAM, number=2, name=A), "=1"),
        ("new_var", [6], "=2"),
        ("unify", [2, INVERSE + 1], "Success"),
        ("new", kind(TUPLE, 2, 1, 0), "=3"),
        ("error", [], "=4"),
        ("force_kind", [0], "known 14 0 0 0 reported 5"),
        ("swap", [], None),
    ]


def importing():
    """A destination with two of four nodes made, and room for three children."""
    enough = [1, 1, INVERSE]
    many = [3] * 256
    return [
        LEND,
        ("open", [4, 3], "done"), ("open_names", [4, 3], "done"),
        ("import", [1, 1, 1, 3, 0], "refused 3"),
        ("new_vars", [7, 2, 2], "types 0 1"),
        ("import", [1, 0, 1, 5], "refused 3"),
        ("import", [1, 1, 1, 3, 1, 1, 2], "refused 3"),
        ("import", [256, 0, 256, *many], "refused 4"),
        ("import", [256, 0, 256, *many[1:], 5], "refused 3"),
        ("import", [1, 1, 1, 3, *[0] * 256], "refused 4"),
        ("import", [1, 1, 1, 3], "refused 6"),           # an empty list
        ("import", [1, 1, 1, 3, *enough[1:]], "refused 6"),
        ("import", [1, 1, 1, 4, *enough], "types 2"),
        ("import", [0, 1, 1, 3, *enough], "refused 10"),
        ("reset", [], "done"), ("new_vars", [7, 2, 2], "types 0 1"),
        ("import", [0, 0, 1, 3, *enough], "refused 10"),  # no list: its words are not read
        ("poke", [0, 3, 2], None), ("import", [0, 1, 1, 3, *enough], "refused 11"),
        ("import", [0, 1, 1, 3], "refused 6"),
        ("poke", [0, 3, 3], None), ("import", [0, 1, 1, 3, *enough], "refused 7"),
        ("swap", [], None), ("lend", [8, NODES * 12 - 1, CHILDREN * 4], None), ("swap", [], None),
        ("import", [0, 0, 1, 5], "refused 9"),
        ("lend", [7, NODES * 12, CHILDREN * 4], None), ("import", [0, 0, 1, 5], "refused 8"),
        ("lend", [8, NODES * 12, CHILDREN * 4], None),
        ("swap", [], None), ("lend", [8, NODES * 12, CHILDREN * 4], None), ("swap", [], None),
        ("import", [2, 1, 2, 3, INVERSE + 3, *enough], "types 2 ~2"),
        ("import", [0, 0, 0], "types"),
        ("import", [0, 0, 1, 0], "refused 10"),
    ]


def exporting():
    """The tuple and what it leads to: three nodes and three children."""
    words = [8, 48, 12]
    fresh = "nodes 3 of {}, children 3 of {}, error none, nil none, reports 0\n  root 1 known 1 0 0 0 1 ~1 2\n  root 1 unknown 7\n  root 1 unknown " + str(NONE)
    return [
        ("export", [4097, 3, 0, *words, 9], "refused 1"),
        ("export", [4, 4, 0, *words, 9], "refused 1"),
        ("export", [4, 3, 0, 7, 48, 12, 9], "refused 1"),
        ("export", [4, 3, 0, *words, 9], "refused 3"),
        ("export", [4, 3, 0, *words, *[2] * 256], "refused 4"),
        ("export", [2, 2, 0, *words, 2], "refused 10"),
        ("export", [3, 2, 0, *words, 2], "refused 11"),
        ("export", [3, 3, 0, *words, 2], "refused 7"),
        ("export", [3, 3, 1, *words, 2], "types 0\n" + fresh.format(3, 3)),
        ("export", [4, 3, 2, *words, INVERSE + 2, 2], "types ~0 0\n" + fresh.format(4, 3)),
        ("export", [0, 0, 0, 8, 0, 0], "types\nnodes 0 of 0, children 0 of 0, error none, nil none, reports 0"),
        ("poke", [1, 2, 2], None), ("export", [4, 3, 0, *words, 9], "refused 8"),
        ("poke", [1, 2, 1], None), ("export", [2, 3, 0, *words, 2], "refused 10"),
    ]


def naming():
    """A names buffer: 1 at its opening; 12 and 13; 8 of the buffer, whichever name is asked for."""
    a, b, c, ninth = [97], [98], [99], [105]
    place = 2 + 256
    rows = [
        LEND, ("open", [NODES, CHILDREN], "done"), ("new_var", [5], "=0"),
        ("open_names", [4097, 0], "refused 1"), ("open_names", [0, 16385], "refused 1"),
        ("open_names", [NODES, CHILDREN + 1], "refused 1"),              # too short for it
        ("open_names", [NODES - 1, CHILDREN], "done"), ("name_state", a, "refused 8"),  # other capacities
        ("open_names", [NODES, CHILDREN - 1], "done"), ("reset", [], "refused 8"),
        ("open_names", [NODES, CHILDREN], "done"),
        ("return_to", a, "refused 12"), ("drop_name", a, "refused 12"),
        ("name_state", [], "refused 12"), ("name_state", [97] * 256, "refused 12"), ("name_state", [97] * 255, "done"),
        ("return_to", [97] * 254, "refused 12"), ("return_to", [97] * 256, "refused 12"), ("drop_name", [], "refused 12"),
        ("drop_name", [97] * 255, "done"),
        ("name_state", a, "done"),
        ("new", kind(NEVER), "=1"), ("unify", [0, 1], "Success"), ("find", [0], "=1"),
        ("return_to", a, "done"), ("find", [0], "=0"), ("find", [1], "refused 3"),
        ("force_kind", [0], "known 14 0 0 0 reported 5"), ("return_to", a, "done"),  # the report stays
    ]
    rows += [("name_state", [name], "done") for name in range(98, 105)]
    rows += [
        ("name_state", ninth, "refused 13"), ("name_state", [97, 97], "refused 13"), ("name_state", [], "refused 12"),
        ("new_var", [6], "=1"), ("name_state", b, "done"),                # held, with eight held
        ("return_to", a, "done"), ("find", [1], "refused 3"), ("return_to", b, "done"), ("find", [1], "=1"),
        ("drop_name", c, "done"), ("return_to", c, "refused 12"), ("drop_name", c, "refused 12"),
        ("name_state", ninth, "done"), ("name_state", c, "refused 13"),
    ]
    # a capacity, a name's length, a byte, an unused byte, another's name, a count, a held state's tag
    for word, bad, good in [(0, 7, NODES), (1, 0, CHILDREN), (2, 256, 1), (3, 256, 97), (4, 1, 0), (3, 98, 97),
                            (place, 2, 1), (place + 8, 9, 1)]:
        rows += [("poke", [3, word, bad], None), ("return_to", b, "refused 8"), ("name_state", [], "refused 8"),
                 ("poke", [3, word, good], None)]
    return rows + [
        ("lend", [8, NODES * 12, CHILDREN * 4, NAMES - 1], None), ("drop_name", b, "refused 8"), ("reset", [], "refused 8"),
        LEND, ("return_to", a, "done"), ("reset", [], "done"),
        ("return_to", a, "refused 12"), ("name_state", ninth, "done"), ("new_var", [8], "=0"),
    ]


def place(n):
    return [n["text"], n["start"], n["len"]]


def said_and_wrote(number, rows, last):
    said, wrote = line("case", number), f"case {number}\n"
    for op, numbers, expected in rows:
        said += line(op, *numbers)
        wrote += "" if expected is None else expected + "\n"
    return said + line("store"), wrote + last


def refused(chart):
    one = said_and_wrote(9999, opening() + making() + asking() + joining() + printing() + broken(chart),
                         "nodes 1 of 6, children 0 of 6, error none, nil 0, reports 0\n  root 1 known 1 0 0 0\n")
    two = said_and_wrote(9998, source() + importing() + exporting(),
                         "nodes 4 of 4, children 3 of 3, error none, nil none, reports 0\n  root 1 unknown 7\n  root 1 unknown 7\n"
                         f"  root 1 known 1 0 0 0 0 ~0 3\n  root 1 unknown {NONE}\n")
    three = said_and_wrote(9997, naming(),
                           "nodes 1 of 6, children 0 of 6, error none, nil none, reports 1\n  root 1 unknown 8\n")
    return one[0] + two[0] + three[0], one[1] + two[1] + three[1]
