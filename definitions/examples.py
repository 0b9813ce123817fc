"""The worked examples of the proofs: equations without premises, which the evaluator decides too."""
from __future__ import annotations

import collections
import glob
from dataclasses import dataclass, field

from . import values
from .evaluate import Definitions
from .machine import TooLong, within
from .solve import holds
from .syntax import Apply, Bound, Name, Not, Operation, Tree, parse_expression
from .values import Stuck, Undefined, undo


# How long an example may take.
SECONDS = 8


@dataclass
class Examples:
    """How many examples are true, are wrong, or are not decided, and why."""
    counts: collections.Counter[str] = field(default_factory=collections.Counter)
    wrong: list[str] = field(default_factory=list)
    undecided: dict[str, str] = field(default_factory=dict)


def modules(definitions: Definitions, crates: set[str] | None = None) -> list[tuple[str, str]]:
    """The modules with worked examples, as (crate, module)."""
    found = []
    for path in sorted(glob.glob(definitions.root + '/*/proofs/**/*Examples.antt', recursive=True)):
        crate, _, name = path[len(definitions.root) + 1:-len('.antt')].partition('/proofs/')
        if not crates or crate in crates:
            found.append((crate, name.replace('/', '.')))
    return found


def check_module(definitions: Definitions, crate: str, name: str, found: Examples) -> None:
    """Decides the examples of a module."""
    scope = definitions.scope(crate, name)
    for example, statement in scope.module.statements.items():
        label = f'{crate}.{name}.{example}'
        if statement[:1] == '{':
            found.counts['general'] += 1
            continue
        try:
            tree = parse_expression(statement)
        except SyntaxError as fault:
            found.counts['not read'] += 1
            found.undecided[label] = str(fault)[:120]
            continue
        if not is_closed_proposition(tree):
            found.counts['value' if is_type(tree) else 'general'] += 1
            continue
        values.undo(0)
        try:
            if within(SECONDS, lambda tree=tree: holds([scope.thunk_of(tree, {})])):  # type: ignore
                found.counts['true'] += 1
            else:
                found.counts['wrong'] += 1
                found.wrong.append(label)
        except (Stuck, TooLong) as fault:
            found.counts['not decided'] += 1
            found.undecided[label] = 'all goals wait' if type(fault) is Stuck else 'takes too long'
        except (Undefined, AttributeError, TypeError, KeyError) as fault:
            found.counts['not decided'] += 1
            found.undecided[label] = f'{type(fault).__name__}: {fault}'
        undo(0)


def is_closed_proposition(tree: Tree) -> bool:
    """Whether a statement is a proposition, and not one on all values of a type."""
    match tree:
        case Operation('→', left, right):
            return is_closed_proposition(left) and is_closed_proposition(right)
        case Operation('≡' | '≢' | '×' | '⊎' | '<' | '≤', _, _) | Not():
            return True
        case Bound('×', _, _, _):
            return True
        case Apply(Name(name), _) | Name(name):
            return name[0].isupper() and name not in ('List', 'Type', 'Option', 'Bool') \
                and isinstance(tree, Apply)
    return False


def is_type(tree: Tree) -> bool:
    """Whether a statement is the type of a value that examples name."""
    return isinstance(tree, Name) or isinstance(tree, Apply) and not is_closed_proposition(tree)


def check(definitions: Definitions, crates: set[str] | None = None) -> Examples:
    """Decides all examples of these crates, or of all."""
    found = Examples()
    for crate, name in modules(definitions, crates):
        check_module(definitions, crate, name, found)
    return found
