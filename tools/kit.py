"""The kit's `rt` as a module, for the tools that check edited copies of a crate as rt itself does."""

import importlib.machinery
import importlib.util
import os
import re
import subprocess
import sys

sys.dont_write_bytecode = True  # nothing built goes into the kit or the repository
ROOT = os.path.dirname(os.path.dirname(os.path.realpath(__file__)))


def load():
    doc = subprocess.run(["rt", "doc"], stdout=subprocess.PIPE, text=True, check=True).stdout.strip()
    loader = importlib.machinery.SourceFileLoader("rt", os.path.join(os.path.dirname(doc), "bin", "rt"))
    made = importlib.util.module_from_spec(importlib.util.spec_from_loader("rt", loader))
    sys.modules["rt"] = made
    loader.exec_module(made)
    os.chdir(ROOT)
    made.rtlib.Crate = made.Crate
    # its first call sets a signal's handler, which only the main thread may
    made.rtlib.guarded()
    return made


def crates(rt, names):
    """The crates of these names, or all, lowest first."""
    found = rt.rtlib.crates_below(ROOT)
    lacking = sorted({*names} - {it.name for it in found})
    if lacking:
        sys.exit(f"{lacking[0]} is no crate of crates.txt")
    return [it for it in found if not names or it.name in names]


def lines(edit):
    with open(edit, encoding="utf-8") as file:
        return file.read().split("\n")


def named(edit, word):
    """What stands behind `word: ` in an edit."""
    return [it[1] for it in (re.fullmatch(rf"(?:# )?{word}: (.*\S)\s*", line) for line in lines(edit)) if it]


def build_below(rt, crates):
    """Sees that the libraries below the crates stand in out/: those that `rt ci` left in a clean clone, or, where `rt check` ran, built over its work, as `rt must-fail` does."""
    libraries = [it for it in rt.rtlib.crates_below(ROOT) if it.makes_rlib()]
    is_ours = any(os.path.isfile(f"{it.folder}/out/rlib/stamp") for it in libraries)
    if is_ours or not all(os.path.isfile(f"{it.rlib}/format") for it in libraries):
        rt.share_work(False)
        if any(dep.build_rlib(["--jobs", "1"], anew=False) for crate in crates for dep in crate.below()):
            sys.exit(1)


def check(rt, crate, texts, flags=()):
    """Checks a copy of the crate with these texts in place of its own, from nothing: the exit status, and what was said."""
    for _ in range(2):
        ran = rt.checked(crate, texts, ["--jobs", "1", *flags], None)
        if ran.returncode >= 0:  # else killed, most likely for memory: once more
            break
    return ran.returncode, ran.stdout


def side_by_side(rt, calls):
    """Runs calls, each with the crate that it checks, as many at once as there are processors and memory, and returns what each gave, in their order."""
    tasks = {(crate.name, "edits", at): ([], crate.count(rb"\n"), rt.need(crate), lambda given, jobs, call=call: call()) for at, (crate, call) in enumerate(calls)}
    given = rt.in_lanes(tasks)
    return [given[key] for key in tasks]
