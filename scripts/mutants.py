#!/usr/bin/env python3
"""Changes the model a little, many times over, and tells the changes that no transcript notices.

Each mutant is one small change of a file of model/: a comparison turned, a number off by one, operators exchanged, a
condition negated or dropped, an end of a slice moved, a text cut, a statement left out. A transcript notices it where the
changed model owes other bytes than those that stand in the transcript, breaks off, or does not end.

A mutant that none notices says the same as the model in other words, or it breaks a rule that no transcript shows. Reading
tells which: docs/transcripts.md has the figures of one run. The status is 0. The same seed picks the same mutants. With
`--count 0` the mutants are only counted.
"""

import argparse
import ast
import importlib.machinery
import importlib.util
import itertools
import multiprocessing
import os
import random
import resource
import signal
import sys
import time

import owed
from running import DATA, ROOT
from transcripts import sessions_of

MODEL = ROOT / "model"
# These are the outside of a session, which transcripts have in memory.
OUTSIDE = ("__init__.py", "__main__.py", "outside.py")
PAIRS = [(ast.Eq, ast.NotEq), (ast.In, ast.NotIn), (ast.Is, ast.IsNot), (ast.Add, ast.Sub), (ast.Mult, ast.FloorDiv)]
PAIRS += [(ast.LShift, ast.RShift), (ast.BitAnd, ast.BitOr), (ast.And, ast.Or), (ast.Lt, ast.LtE), (ast.Gt, ast.GtE)]
SWAPS = {**dict(PAIRS), **{other: one for one, other in PAIRS}, ast.Mod: ast.Add, ast.Pow: ast.Mult}
CALLS = {"min": "max", "max": "min", "any": "all", "all": "any", "sorted": "list", "reversed": "list", "abs": "int"}
# The most bytes that a process takes.
MEMORY = 6 << 30
# The sessions that are tried, cheapest first: seconds, functions, title and session.
SESSIONS = []


def but(node, **parts):
    return type(node)(**{**dict(ast.iter_fields(node)), **parts})


def of_constant(value):
    """Other values: the numbers beside it, the other flag, and texts of which one word is cut."""
    if isinstance(value, bool):
        return [not value]
    if isinstance(value, int):
        return [value + 1, value - 1]
    words = value.split(b" ") if isinstance(value, bytes) else []
    return [b" ".join(words[:at] + [word[:-1]] + words[at + 1 :]) for at, word in enumerate(words) if word]


def changed(node):
    """The nodes that may stand in this one's place."""
    match node:
        case ast.Constant():
            yield from map(ast.Constant, of_constant(node.value))
        case ast.Compare():
            for at, op in enumerate(node.ops):
                yield but(node, ops=node.ops[:at] + [SWAPS[type(op)]()] + node.ops[at + 1 :])
        case ast.BinOp() | ast.BoolOp() | ast.AugAssign():
            yield but(node, op=SWAPS[type(node.op)]())
            yield from getattr(node, "values", ())
        case ast.UnaryOp():
            yield node.operand
        case ast.IfExp():
            yield from (node.body, node.orelse)
        case ast.If() | ast.While():
            yield but(node, test=ast.UnaryOp(ast.Not(), node.test))
        case ast.comprehension(ifs=[_, *_]):
            yield but(node, ifs=[])
        case ast.Slice():
            yield but(node, lower=ast.BinOp(node.lower or ast.Constant(0), ast.Add(), ast.Constant(1)))
            yield but(node, upper=ast.BinOp(node.upper, ast.Add(), ast.Constant(1)) if node.upper else ast.Constant(-1))
        case ast.Call(func=ast.Name(id=name)) if name in CALLS:
            yield but(node, func=ast.Name(CALLS[name], ast.Load()))
        case ast.Call(func=ast.Attribute()) if not node.keywords and len(node.args) < 2:
            yield node.func.value
        case ast.Raise() | ast.Return() | ast.Continue() | ast.Break() | ast.Expr(value=ast.Call() | ast.Yield()):
            yield ast.Pass()


def mutants_of(tree):
    """Each mutant: the line of the function that it is in, its own line with both texts, and where to put what."""
    waiting = [(tree, 0)]
    while waiting:
        node, function = waiting.pop(0)
        for field, value in ast.iter_fields(node):
            for at, child in enumerate(value if isinstance(value, list) else [value]):
                if isinstance(child, ast.AST) and not (isinstance(node, ast.Expr) and isinstance(child, ast.Constant)):
                    line = getattr(child, "lineno", getattr(node, "lineno", 0))
                    for new in changed(child):
                        old, told = (ast.unparse(it).split("\n")[0] for it in (child, new))
                        yield function, f"{line}: {old}  ->  {told}", (node, field, at, new)
                    own = [it.lineno for it in (child, *getattr(child, "decorator_list", ()))] if isinstance(child, ast.FunctionDef) else ()
                    waiting.append((child, min(own, default=function)))


class Late(BaseException):
    """A session that does not end."""


def late(*_):
    raise Late()


def timed(seconds):
    """Lets the process work for some seconds more; 0 for any number."""
    signal.setitimer(signal.ITIMER_PROF, seconds)


def reached_by(session, most):
    """The seconds that a session takes and the functions of the model that it reaches; None where it takes too long."""
    codes, begun = set(), time.process_time()
    timed(most)
    sys.setprofile(lambda frame, event, _: event == "call" and codes.add(frame.f_code))
    try:
        count, _, texts = owed.compared(session)
    except Late:
        return None
    finally:
        sys.setprofile(None)
        timed(0)
    places = {(os.path.basename(code.co_filename), code.co_firstlineno) for code in codes}
    return (time.process_time() - begun, places) if count and not texts else None


def measured(path, most):
    """The sessions of a file with what each reaches."""
    found = [(reached_by(session, most), f"{path.name}: {session.title}", session) for session in sessions_of(path)]
    return [(*reached, title, session) for reached, title, session in found if reached]


def load(name, tree):
    """Loads the model anew, with this tree in the place of one of its files."""
    for module in [it for it in sys.modules if it.split(".")[0] in ("model", "owed", "fuzz")]:
        del sys.modules[module]

    class Loader(importlib.machinery.SourceFileLoader):
        def get_code(self, fullname):
            return compile(tree, str(MODEL / name), "exec")

    class Finder:
        @staticmethod
        def find_spec(fullname, _path, _target=None):
            if fullname == f"model.{name[:-3]}":
                return importlib.util.spec_from_loader(fullname, Loader(fullname, str(MODEL / name)))
            return None

    sys.meta_path.insert(0, Finder)
    return importlib.import_module("owed")


def noticed_by(mutant):
    """The title of a session that notices the mutant, or the empty text."""
    name, number = mutant[:2]
    tree = ast.parse((MODEL / name).read_text())
    function, _, (node, field, at, new) = list(mutants_of(tree))[number]
    if isinstance(getattr(node, field), list):
        getattr(node, field)[at] = new
    else:
        setattr(node, field, new)
    title = "the model itself"
    try:
        model = load(name, ast.fix_missing_locations(tree))
        for seconds, places, title, session in SESSIONS:
            if not function or (name, function) in places:
                timed(2 + 5 * seconds)
                _, silent, texts = model.compared(session)
                timed(0)
                if silent or texts:
                    return title
    except BaseException:  # Whatever breaks off is noticed.
        return title
    return ""


def arguments():
    parser = argparse.ArgumentParser(description=__doc__, formatter_class=argparse.RawDescriptionHelpFormatter)
    parser.add_argument("--seed", default="1", help="another seed picks other mutants (1)")
    parser.add_argument("--count", type=int, default=300, help="how many mutants (300)")
    parser.add_argument("--file", action="append", help="of this file of model/ alone; may be repeated")
    parser.add_argument("--seconds", type=float, default=1, help="leave out sessions that take longer on the model (1)")
    parser.add_argument("--jobs", type=int, default=2, help="mutants side by side (2)")
    return parser.parse_args()


def main():
    given = arguments()
    signal.signal(signal.SIGPROF, late)
    resource.setrlimit(resource.RLIMIT_AS, (MEMORY, MEMORY))
    names = given.file or [path.name for path in sorted(MODEL.glob("*.py")) if path.name not in OUTSIDE]
    mutants = [(name, *it) for name in names for it in enumerate(text for _, text, _ in mutants_of(ast.parse((MODEL / name).read_text())))]
    picked = sorted(random.Random(given.seed).sample(mutants, min(given.count, len(mutants))))
    paths = sorted(DATA.glob("*.txt")) if picked else []
    with multiprocessing.Pool(given.jobs) as pool:
        found = pool.starmap(measured, [(path, given.seconds) for path in paths], 1)
    SESSIONS.extend(sorted(itertools.chain(*found), key=lambda entry: entry[0]))
    left = 0
    # Each mutant has a process of its own, which the next can't spoil.
    with multiprocessing.Pool(given.jobs, maxtasksperchild=1) as pool:
        for (name, _, text), title in zip(picked, pool.imap(noticed_by, picked)):
            left += not title
            if not title:
                print(f"{name}:{text}", flush=True)
    print(f"{len(picked)} of {len(mutants)} mutants, {left} that none of {len(SESSIONS)} sessions notices")


if __name__ == "__main__":
    main()
