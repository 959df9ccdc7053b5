"""Talks to the built Rust program: a line for each call, a line of JSON for each answer."""

import json
import subprocess


def word_name(name):
    return "-" if name is None else f"{name['text']}.{name['start']}.{name['len']}"


def word_type(t):
    return ("~" if t["inv"] else "") + str(t["node"])


def words_list(items, word):
    return " ".join([str(len(items))] + [word(item) for item in items])


def words_types(types):
    return words_list(types, word_type)


def words_optional(types):
    return "-" if types is None else words_types(types)


def words_numbers(numbers):
    return words_list(numbers, str)


def words_object(fields):
    return words_list(fields["names"], word_name) + " " + words_types(fields["kids"])


def words_sig(sig):
    return words_types(sig["params"]) + " " + word_type(sig["ret"])


def words_impl(impl):
    if impl["is"] == "error":
        return "error"
    return f"trait {impl['trait']} {words_types(impl['types'])}"


def words_kind(kind):
    name, number, kids = kind["kind"], kind["number"], kind["kids"]
    words = [name]
    if name in ("Param", "Opaque", "Struct", "Enum", "Union", "Fn", "IfConst", "Closure"):
        words.append(str(number))
    if name == "Closure":
        words.append(str(kind["flex"]))
    if name in ("Param", "Key"):
        words.append(word_name(kind["names"][0]))
    if name in ("Object", "Closure"):
        words.append(words_list(kind["names"], word_name))
    if name in ("Tuple", "Object", "Opaque", "Struct", "Enum", "Union"):
        words.append(words_types(kids))
    if name == "Closure":
        words.append(words_types(kids[:-1]) + " " + word_type(kids[-1]))
    if name in ("Ref", "IfConst"):
        words += [word_type(kid) for kid in kids]
    return " ".join(words)


TYPE = [("type", word_type)]
# For each call, its arguments in order.
SHAPES = {
    "new": [("kind", words_kind)],
    "new_var": [("span", str)],
    "new_vars": [("span", str), ("count", str)],
    "new_struct": [("record", str), ("kids", words_types)],
    "new_union": [("record", str), ("kids", words_types)],
    "error": [],
    "nil": [],
    "unify": [("a", word_type), ("b", word_type)],
    "unify_types": [("a", words_types), ("b", words_types), ("inv", str)],
    "unify_objects": [("a", words_object), ("b", words_object), ("inv", str)],
    "unify_impl_type": [("a", words_impl), ("b", words_impl)],
    "unify_fn_sig": [("a", words_sig), ("b", words_sig)],
    "force_kind": TYPE,
    "finish_inference": [],
    "finish_inference_where": [("bytes", words_numbers)],
    "find": TYPE,
    "find_mut": TYPE,
    "self_inverse": [("type", word_type), ("param", str)],
    "is_nil": TYPE,
    "get_mod": TYPE,
    "approx_eq": [("a", words_impl), ("b", words_impl)],
    "find_related": [("type", word_type), ("marks", words_numbers)],
    "show": TYPE,
    "show_impl_type": [("impl", words_impl)],
    "import": [("types", words_types), ("params", words_optional)],
    "export": [("types", words_types)],
    "reset": [],
}


class Oracle:
    def __init__(self, program, chart):
        self.chart = chart
        self.pipe = subprocess.Popen([program], stdin=subprocess.PIPE, stdout=subprocess.PIPE,
                                     text=True)
        for text in chart["texts"]:
            self.send("text " + bytes(text).hex())
        for record in chart["records"]:
            self.send(f"record {record['sort']} {word_name(record['name'])} "
                      f"{word_name(record['path'])} {record['def']} {record['flag']} "
                      f"{record['trait']}")
        self.send(f"chart {chart['fn_trait']} " + " ".join(map(word_name, chart["sigils"])))

    def send(self, line):
        self.pipe.stdin.write(line + "\n")
        self.pipe.stdin.flush()
        answer = self.pipe.stdout.readline()
        if not answer:
            raise RuntimeError("the Rust program stopped at: " + line)
        return json.loads(answer)

    def call(self, name, args):
        shape = SHAPES[name]
        assert sorted(args) == sorted(key for key, _ in shape), (name, args)
        return self.send(" ".join([name] + [words(args[key]) for key, words in shape]))

    def close(self):
        self.pipe.stdin.close()
        self.pipe.wait()


def load_chart(path):
    """The chart file with its texts as lists of bytes."""
    with open(path, encoding="utf-8") as file:
        chart = json.load(file)
    chart["texts"] = [list(text.encode("utf-8")) for text in chart["texts"]]
    return chart
