"""Takes out the tokens of a ledger, which take no bytes and do nothing.

A type is ghost if it is one of `std::sync::ledger`, or a struct that holds only such types. Its
declaration and impls go, parameters and arguments of it, and statements that make or call one.
Where a value of it is elsewhere, the script refuses.
"""
from laws import drop_removed
from names import Names
from tokens import LIFETIME

TYPES = {('std', 'sync::ledger::' + name) for name in ('Blank', 'Book', 'Share', 'Total')}
TRAIT = ('std', 'sync::ledger::Ledger')
BRAND = ('std', 'marker::Brand')


def type_head(source, start, end):
    """The position of the last name in the path of a type, without references."""
    at = start
    while at < end and (source.text(at) in ('&', 'mut') or source.code[at].kind == LIFETIME):
        at += 1
    while source.text(at + 1) == '::' and source.is_ident(at + 2):
        at += 2
    return at


def is_ghost(source, names, ghosts, start, end):
    at = type_head(source, start, end)
    return source.is_ident(at) and names.of(source, at) in ghosts


def fields_of(source, at):
    """The types of a struct's fields, as pairs of positions. The struct's name is at `at`."""
    at += 1
    if source.text(at) == '<':
        at = source.angle_end(at)
    while source.text(at) not in ('{', '(', ';'):
        at += 1
    if source.text(at) != '{':
        return []
    found = []
    for begin, stop in source.parts(at + 1, source.mate[at]):
        while source.text(begin) != ':':
            begin += 1
        found.append((begin + 1, stop))
    return found


def ghost_structs(source, ghosts):
    """The structs of a file that hold only ghost types: name and position."""
    names, found = Names(source), []
    for at in range(len(source.code)):
        if source.text(at) == 'struct' and source.is_ident(at + 1):
            fields = fields_of(source, at + 1)
            if fields and all(is_ghost(source, names, ghosts, *field) for field in fields):
                found.append((source.text(at + 1), at))
    return found


def item_end(source, at):
    """The end of an item: its braces or its semicolon."""
    while source.text(at) not in ('{', ';'):
        at = source.mate[at] + 1 if source.text(at) in ('(', '[') else at + 1
    return source.mate[at] + 1 if source.text(at) == '{' else at + 1


def drop_structs(source, ghosts):
    """Takes out the ghost structs of a file. Returns their names."""
    found = []
    for name, at in ghost_structs(source, ghosts):
        start = at - 1 if source.text(at - 1) == 'pub' else at
        if source.text(at - 1) == ')':
            start = source.mate[at - 1] - 1
        source.drop_item(start, item_end(source, at), 'ghost struct')
        found.append((source.crate, name))
    if found:
        names = {name for _, name in found}
        source.settle()
        for at in range(len(source.code)):
            if source.text(at) == 'impl' and source.text(at - 1) not in ('(', ',', '&', ':'):
                after = source.angle_end(at + 1) if source.text(at + 1) == '<' else at + 1
                if source.text(type_head(source, after, len(source.code))) in names:
                    source.drop_item(at, item_end(source, at), 'ghost struct')
        source.settle()
    return found


def drop_list(source, opening, parts, going, rule):
    """Takes parts out of a list in `<..>` that opens at `opening`, or all of it."""
    if going and len(going) == len(parts):
        start = opening - 1 if source.text(opening - 1) == '::' else opening
        source.drop(start, source.angle_end(opening), rule)
        return
    for begin, stop in going:
        source.drop_part(begin, stop, rule)


def drop_generics(source, names, function):
    """Takes out the parameters with the bound `Ledger`. Returns their names."""
    if not function.generics:
        return set()
    opening, end = function.generics
    parts = source.parts(opening + 1, end - 1)
    going = [(begin, stop) for begin, stop in parts
             if stop == begin + 3 and names.at(source, begin + 2) == TRAIT]
    found = {source.text(begin) for begin, _ in going}
    drop_list(source, opening, parts, going, 'ledger: parameter of a type')
    return found


def drop_turbofish(source, names, ledgers, start, end):
    """Takes out the arguments that name a ledger."""
    for at in range(start, end):
        if source.text(at) != '<' or source.text(at - 1) != '::' or source.code[at].gone:
            continue
        parts = source.parts(at + 1, source.angle_end(at) - 1)
        going = [(begin, stop) for begin, stop in parts if stop == begin + 1
                 and (source.text(begin) in ledgers or names.at(source, begin) == BRAND)]
        drop_list(source, at, parts, going, 'ledger: argument of a type')


def drop_params(source, names, ghosts, function):
    """Takes out the parameters of a ghost type. Returns their names."""
    found = set()
    for begin, stop in source.parts(function.params[0] + 1, function.params[1]):
        at = begin + 1 if source.text(begin) == 'mut' else begin
        if source.text(at + 1) == ':' and is_ghost(source, names, ghosts, at + 2, stop):
            found.add(source.text(at))
            source.drop_part(begin, stop, 'ledger: parameter')
    return found


def statement_end(source, at):
    while source.text(at) != ';':
        at = source.mate[at] + 1 if source.text(at) in ('(', '[', '{') else at + 1
    return at + 1


def drop_lets(source, names, ghosts, start, end):
    """Takes out the statements that make a ghost value. Returns its variables."""
    found = set()
    for at in range(start, end):
        if source.text(at) != 'let':
            continue
        name = at + 2 if source.text(at + 1) == 'mut' else at + 1
        value = name + 2
        if source.text(name + 1) == '=' and is_ghost(source, names, ghosts, value, end):
            if source.text(type_head(source, value, end) + 1) == '::':
                found.add(source.text(name))
                source.drop(at, statement_end(source, at), 'ledger: statement')
    return found


def drop_values(source, names, ghosts, ghost_names, start, end):
    """Takes out the arguments and statements that are ghost values."""
    for at in range(start, end):
        if source.code[at].gone or not source.is_ident(at):
            continue
        made = names.of(source, at) in ghosts and source.text(at + 1) == '::'
        if not made and (source.text(at) not in ghost_names or source.text(at - 1) in ('.', '::')):
            continue
        first = at - 1 if source.text(at - 1) == 'mut' else at
        first = first - 1 if source.text(first - 1) == '&' else first
        last = at + 1
        while source.text(last) in ('::', '(', '<') or made and source.is_ident(last):
            last = source.mate[last] + 1 if source.text(last) == '(' else last + 1
        call = source.enclosing(at)
        is_argument = source.text(first - 1) in ('(', ',') and source.text(last) in (',', ')')
        if is_argument and (source.is_ident(call - 1) or source.text(call - 1) == '>'):
            source.drop_part(first, last, 'ledger: argument')
        elif source.text(at + 1) == '.' and source.text(at - 1) in ('{', '}', ';'):
            source.drop(at, statement_end(source, at), 'ledger: statement')
        else:
            source.refuse(at, 'a value of a ghost type where it cannot go')


def drop_in_functions(source, ghosts):
    """Takes the ghost types out of each function of a file."""
    names = Names(source)
    for function in source.functions():
        ledgers = drop_generics(source, names, function)
        variables = drop_params(source, names, ghosts, function)
        if function.body:
            variables |= drop_lets(source, names, ghosts, *function.body)
            drop_turbofish(source, names, ledgers, *function.body)
            drop_values(source, names, ghosts, variables, *function.body)
    source.settle()


def drop_ledgers(sources):
    """Takes out all ghost types and their values."""
    ghosts = set(TYPES)
    while True:
        more = {found for source in sources for found in drop_structs(source, ghosts)}
        if not more:
            break
        ghosts |= more
    for source in sources:
        drop_in_functions(source, ghosts)
    drop_removed(sources, ghosts | {TRAIT, BRAND, ('std', 'marker::Model')})
