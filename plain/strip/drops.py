"""What goes because only proofs read it, where one file is enough to see it.

The contracts themselves are gone when a file is cut into tokens. Each function here takes out one
more form of the language.
"""
from tokens import LIFETIME

KEPT_ATTRIBUTES = {'allow', 'cold', 'derive', 'error', 'from', 'inline', 'macro_export', 'must_use',
                   'non_exhaustive', 'repr', 'source', 'unsafe'}
PROOF_ATTRIBUTES = {'tactic', 'cycle'}
LOOPS = ('for', 'while', 'loop')


def drop_attributes(source):
    """`#[tactic(..)]` and `#![tactic(..)]` steer the search for proofs."""
    for at, token in enumerate(source.code):
        if token.text != '#' or source.text(at + 1) not in ('[', '!'):
            continue
        opening = at + 1 if source.text(at + 1) == '[' else at + 2
        name = source.text(opening + 1)
        if name in PROOF_ATTRIBUTES:
            source.drop(at, source.mate[opening] + 1, 'tactic')
        elif name not in KEPT_ATTRIBUTES:
            source.refuse(at, 'an attribute that is not known: %s' % name)
    source.settle()


def drop_derives(source):
    """`derive(Drop)` lets a value be dropped, as each value of Rust is."""
    for at, token in enumerate(source.code):
        if token.text != 'derive' or source.text(at - 1) != '[':
            continue
        start, end = at + 2, source.mate[at + 1]
        parts = source.parts(start, end)
        for begin, stop in parts:
            if source.text(begin) == 'Drop' and stop == begin + 1:
                if len(parts) == 1:
                    source.drop(at - 2, source.mate[at - 1] + 1, 'derive(Drop)')
                else:
                    source.drop_part(begin, stop, 'derive(Drop)')
    source.settle()


def drop_models(source):
    """An `impl Model` says how contracts see a type, and holds no code."""
    for at, token in enumerate(source.code):
        if token.text != 'Model' or source.text(at + 1) != 'for':
            continue
        start = at - 1
        while source.text(start) != 'impl':
            start -= 1
        body = at
        while source.text(body) != '{':
            body += 1
        if source.mate[body] != body + 1:
            source.refuse(body, 'code in an impl of Model')
        source.drop_item(start, body + 2, 'Model')
    source.settle()


def is_in_where(source, at):
    """Whether the position is in a `where` clause, and not in parameters before it."""
    while at >= 0 and source.text(at) not in ('{', '}', ';', 'fn', 'impl', 'struct', 'enum'):
        if source.text(at) == 'where':
            return True
        at -= 1
    return False


def drop_bounds(source):
    """The bound `Drop` lets a value of a type parameter be dropped."""
    for at, token in enumerate(source.code):
        if token.text != 'Drop' or token.gone:
            continue
        before, after = source.text(at - 1), source.text(at + 1)
        if before == '+':
            source.drop(at - 1, at + 1, 'bound Drop')
        elif before == ':' and after == '+':
            source.drop(at, at + 2, 'bound Drop')
        elif before == ':' and after in (',', '>', '{', ';') and is_in_where(source, at):
            begin = at - 2
            end = at + 2 if after == ',' else at + 1
            alone = source.text(begin - 1) == 'where' and source.text(end) in ('{', ';')
            source.drop(begin - 1 if alone else begin, end, 'bound Drop')
        elif before == ':' and after in (',', '>', '{', ';', '='):
            source.drop(at - 1, at + 1, 'bound Drop')
        else:
            source.refuse(at, 'Drop where it is no bound')
    source.settle()


def drop_finals(source):
    """`final fn` is a method that no impl may override."""
    for at, token in enumerate(source.code):
        if token.text == 'final' and source.text(at + 1) == 'fn':
            source.drop(at, at + 1, 'final')
    source.settle()


def drop_labels(source):
    """A label that no `break` names is there for the loop's invariant."""
    named = {source.text(at) for at in range(len(source.code))
             if source.code[at].kind == LIFETIME and source.text(at - 1) in ('break', 'continue')}
    for at, token in enumerate(source.code):
        if token.kind != LIFETIME or token.text in named:
            continue
        if source.text(at + 1) == ':' and source.text(at + 2) in LOOPS:
            source.drop(at, at + 2, 'label')
    source.settle()


def drop_comments(source):
    """What is right above a ghost member speaks of it."""
    for at, token in enumerate(source.tokens):
        if token.gone == 'ghost member':
            source.drop_comments(at, 'ghost member')


def drop_all(source):
    for drop in (drop_comments, drop_attributes, drop_derives, drop_models, drop_bounds, drop_finals,
                 drop_labels):
        drop(source)
