"""Takes out the laws: functions that promise something and do nothing, and their calls.

A law is a free function with an `ensures`, without a result or a `&mut`, whose body is empty. Once
its calls are gone, a function that only called laws is one too.
"""
from names import Names, drop_leaves, items, mentions
from source import Function
from tokens import GHOST

TYPES_OF_STD = {('std', 'alloc::' + name) for name in ('AllocError', 'AllocFailed', 'Global')}


def promises(source, function):
    """Whether an `ensures` is before the function's body."""
    first = source.place[id(source.code[function.params[1]])]
    last = source.place[id(source.code[function.body[0]])]
    return any(token.kind == GHOST and token.gone == 'ensures'
               for token in source.tokens[first:last])


def is_law(source, function):
    if not function.body or function.result or function.body[1] != function.body[0] + 1:
        return False
    start, end = function.params
    mutable = any(source.text(at) == 'mut' and source.text(at - 1) != '('
                  for at in range(start, end))
    return not mutable and source.depth_of(function.fn) == 0 and promises(source, function)


def drop_laws_of(source):
    """Takes out the laws that a file declares. Returns their names."""
    found = []
    for function in source.functions():
        if is_law(source, function):
            source.drop_item(function.start(), function.end, 'law')
            found.append((source.crate, function.name))
    source.settle()
    return found


def drop_call(source, at):
    """Takes out the statement that calls the law at a position."""
    start = at
    while source.text(start - 1) == '::':
        start -= 2
    if source.text(start - 1) == '=' and source.text(start - 2) == '_':
        start -= 3
    end = source.mate[at + 1] + 1
    if source.text(end) == ';':
        end += 1
    elif source.text(end) != '}':
        source.refuse(at, 'a call of a law within an expression')
    if source.text(start - 1) not in ('{', '}', ';'):
        source.refuse(at, 'a call of a law within an expression')
    if any(source.text(k) in ('?', '=', '!') for k in range(at, end)):
        source.refuse(at, 'a call of a law whose arguments do something')
    source.drop(start, end, 'call of a law')


def drop_calls_of(source, laws):
    """Takes out the calls of laws in a file."""
    origins = Names(source)
    for at in range(len(source.code)):
        if source.is_ident(at) and source.text(at + 1) == '(' and source.text(at - 1) != '.':
            if origins.of(source, at) in laws:
                drop_call(source, at)
    source.settle()


def drop_laws(sources):
    """Takes out all laws, their calls and their imports. Returns their names."""
    laws = set()
    while True:
        more = [law for source in sources for law in drop_laws_of(source)]
        if not more:
            break
        laws.update(more)
        for source in sources:
            drop_calls_of(source, laws)
    return laws


def drop_removed(sources, removed):
    """Takes out the imports of what is gone, and what they hand on. Then the empty modules."""
    removed = set(removed)
    while True:
        before = len(removed)
        for source in sources:
            names = Names(source)
            gone = drop_leaves(source, lambda use, leaf: names.of_path(leaf.path) in removed,
                               'import of what is gone')
            removed.update((source.crate, leaf.name) for use, leaf in gone if use.public)
        for source in [s for s in sources if not s.code or is_bare(s)]:
            sources.remove(source)
            removed.add((source.crate, ''))
            drop_module(sources, source)
        if len(removed) == before:
            return


def is_bare(source):
    """Whether nothing but attributes of the file is left."""
    at = 0
    while source.text(at) == '#' and source.text(at + 1) == '!':
        at = source.mate[at + 2] + 1
    return at >= len(source.code)


def drop_module(sources, gone):
    """Takes out the `mod` item of a file that is gone."""
    name = gone.rel.rsplit('/', 1)[-1][:-len('.rt')]
    if name in ('lib', 'main', 'mod'):
        return
    for source in sources:
        if source.crate != gone.crate:
            continue
        for at in range(len(source.code)):
            if source.text(at) == 'mod' and source.text(at + 1) == name:
                start = at
                if source.text(at - 1) == 'pub':
                    start = at - 1
                elif source.text(at - 1) == ')':
                    start = source.mate[at - 1] - 1
                source.drop_item(start, at + 3, 'module of which nothing is left')
        source.settle()


def drop_unread(sources):
    """Takes out the imports that only contracts read: names that the code does not mention.

    A trait stays, since its methods are called without its name.
    """
    kinds = {(source.crate, name): kind for source in sources
             for name, kind in items(source).items()}
    for source in sources:
        names, counts = Names(source), mentions(source)

        def unread(use, leaf):
            if use.public or leaf.name in counts or leaf.name in ('*', '_'):
                return False
            origin = names.of_path(leaf.path)
            kind = 'struct' if origin in TYPES_OF_STD else kinds.get(origin)
            return kind not in (None, 'trait') or leaf.name.isupper()

        drop_leaves(source, unread, 'import that only contracts read')
