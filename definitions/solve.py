"""Finds the unknowns of a proposition, or shows that there are none.

A goal that needs an unknown waits for others; a choice waits longer. If all wait, an unknown is
tried with each form that the definition has that asked for it, or each variant of its type."""
from __future__ import annotations

from typing import Any, Callable, Iterator

from . import syntax
from .evaluate import PROPOSITIONS, SOURCES, Scope, environment
from .syntax import Apply, Name, Operation, Parametrised, Pattern, Tree
from .values import (NIL, TRAIL, Call, Con, Cons, Nil, Open, Prop, Stuck, Thunk, Undefined, Var,
                     bind, field, force, items, listed, peek, plain, undo, walk)

# Reads a text backwards: from an index on, what a word wrote there. (bytes, index, arguments) to
# the indexes of the end.
Inverse = Callable[..., Iterator[int]]
INVERSES: dict[str, Inverse] = {}

# Names of types whose values are data. Others are looked up.
DATA = {'ℕ', 'List', 'Bool', 'Option', 'Result', 'Type'}


def unify(a: Any, b: Any) -> bool:
    """Makes two values the same, if they can be."""
    a, b = walk(a), walk(b)
    if a is b:
        return True
    if type(a) is Var:
        bind(a, b)
        return True
    if type(b) is Var:
        bind(b, a)
        return True
    if isinstance(a, (Cons, Nil)):
        while True:
            if a is NIL or b is NIL:
                return a is b
            if not unify(a.head, b.head):
                return False
            a, b = walk(a.tail), walk(b.tail)
            if a is b:
                return True
            if type(a) is Var or type(b) is Var:
                return unify(a, b)
    if isinstance(a, dict) or isinstance(b, dict):
        if isinstance(a, tuple) or isinstance(b, tuple):
            of, other = (a, b) if isinstance(a, tuple) else (b, a)
            return all(unify(x, field(other, str(i))) for i, x in enumerate(of))
        return all(unify(a[key], b[key]) for key in {**a, **b})
    if isinstance(a, tuple):
        return len(a) == len(b) and all(map(unify, a, b))
    if type(a) is Con:
        return type(b) is Con and a.name == b.name and len(a.args) == len(b.args) \
            and all(map(unify, a.args, b.args))
    return type(a) is type(b) and a == b


def equal(a: Any, b: Any, late: bool) -> Iterator[None]:
    """The ways in which two values are the same. One that is not known is read backwards; `late`
    allows to try where a part of a text ends."""
    mark = len(TRAIL)
    try:
        if unify(a, b):
            yield
        undo(mark)
        return
    except Stuck as stuck:
        undo(mark)
        why = stuck
    for known, other in ((a, b), (b, a)):
        value = peek(known)
        if type(value) is int:
            if isinstance(other, Thunk) and other.work is not None and other.source >= 0:
                found = number_back(*SOURCES[other.source], environment(other), value)
                if found is not None:
                    if unify(*found):
                        yield
                    undo(mark)
                    return
            continue
        if not isinstance(value, (Cons, Nil)):
            continue
        try:
            whole = [force(x) for x in items(value)]
        except Stuck:
            undo(mark)
            continue
        ends = spell(other, whole, 0, late)
        try:
            for end in ends:
                if end == len(whole):
                    yield
            undo(mark)
            return
        except Stuck as stuck:
            undo(mark)
            why = stuck if stuck.variable is not None else why
    raise why


def number_back(scope: Scope, tree: Tree, names: dict[str, Any],
                value: int) -> tuple[Any, Any] | None:
    """Two values that are the same if an expression is this number: a sum of which one part is
    known, or a length."""
    match tree:
        case Operation('+', left, right):
            for known, other in ((left, right), (right, left)):
                number = peek(scope.thunk_of(known, names))
                if type(number) is int:
                    return (scope.thunk_of(other, names), value - number) if value >= number \
                        else (True, False)
        case Apply(Name('length'), [of]):
            return scope.thunk_of(of, names), listed(Var() for _ in range(value))
    return None


def spell(v: Any, s: list[int], i: int, late: bool) -> Iterator[int]:
    """Where the bytes end that a value has from index i on."""
    mark = len(TRAIL)
    try:
        v_ = walk(v)
        if type(v_) is Cons or v_ is NIL:
            got, rest = [], v_
            while type(rest) is Cons:
                got.append(walk(rest.head))
                rest = walk(rest.tail)
            if rest is NIL and all(type(x) is int for x in got):
                if s[i:i + len(got)] == got:
                    yield i + len(got)
                return
            if rest is NIL and i + len(got) <= len(s):
                if all(map(unify, got, s[i:])):
                    yield i + len(got)
                undo(mark)
                return
    except Stuck:
        v_ = peek(v)
    if type(v_) is Var:
        if not late:
            raise Stuck(v_)
        for j in range(len(s), i - 1, -1):
            bind(v_, listed(s[i:j]))
            yield j
            undo(mark)
        return
    if v_ is NIL:
        yield i
        return
    if type(v_) is Cons:
        if i < len(s) and unify(v_.head, s[i]):
            yield from spell(v_.tail, s, i + 1, late)
        undo(mark)
        return
    if isinstance(v, Var):
        v = v.value
    while isinstance(v, Thunk) and v.work is None:
        v = v.value
    if isinstance(v, Thunk) and type(v.work) is Call and v.work.joins:
        first, second = v.work.args
        for j in spell(first, s, i, late):
            yield from spell(second, s, j, late)
        return
    if not isinstance(v, Thunk) or v.source < 0:
        raise Stuck()
    scope, tree = SOURCES[v.source]
    yield from spell_tree(scope, tree, environment(v), s, i, late)


def spell_tree(scope: Scope, tree: Tree, names: dict[str, Any], s: list[int], i: int,
               late: bool) -> Iterator[int]:
    """The same of an expression that cannot be evaluated yet."""
    mark = len(TRAIL)
    match tree:
        case Operation('++', left, right):
            for j in spell(scope.thunk_of(left, names), s, i, late):
                yield from spell(scope.thunk_of(right, names), s, j, late)
            return
        case Apply(Name(name), arguments):
            values = [scope.thunk_of(each, names) for each in arguments]
            if name in INVERSES:
                yield from INVERSES[name](s, i, *values)
                return
            found = equations_of(scope, name)
            if found:
                there, equations = found
                for patterns, body in equations:
                    inner: dict[str, Any] = {}
                    if all(guess(q, x, inner) for q, x in zip(patterns, values)):
                        yield from spell(there.thunk_of(body, inner), s, i, late)
                    undo(mark)
                return
        case Name(name) if name in names:
            of = names[name]
            if isinstance(of, Thunk) and of.work is not None and of.source >= 0:
                yield from spell_tree(*SOURCES[of.source], environment(of), s, i, late)
                return
    raise Stuck()


def equations_of(scope: Scope, name: str) -> tuple[Scope, Any] | None:
    """The equations of a name, and the scope that they are in."""
    module = scope.module
    if (module.crate, module.name, name) in scope.definitions.replaced:
        return None
    if name in module.equations:
        return scope, module.equations[name]
    use = module.uses.get(name)
    if use and scope.definitions.path(use.crate, use.module):
        return equations_of(scope.definitions.scope(use.crate, use.module), use.name)
    return None


def guess(pattern: Pattern, v: Any, names: dict[str, Any]) -> bool:
    """Whether a value fits a pattern; an unknown gets the form of one without arguments."""
    match pattern:
        case syntax.Any(name):
            names[name] = v
            return True
    w = walk(v)
    if type(w) is Var:
        match pattern:
            case syntax.Literal(value):
                return unify(w, value)
            case syntax.Form(name, arguments) if name != 'suc':
                made = Con(name, tuple(Var() for _ in arguments))
                return unify(w, made) and all(
                    guess(q, x, names) for q, x in zip(arguments, made.args))
        raise Stuck(w)
    match pattern:
        case syntax.Literal(value):
            return w == value
        case syntax.Empty():
            return w is NIL
        case syntax.Link(head, tail):
            return w is not NIL and guess(head, w.head, names) and guess(tail, w.tail, names)
        case syntax.Parts(parts):
            return all(guess(q, field(w, str(k)), names) for k, q in enumerate(parts))
        case syntax.Form('suc', [before]):
            return w > 0 and guess(before, w - 1, names)
        case syntax.Form(name, arguments):
            return w.name == name and all(map(lambda q, x: guess(q, x, names), arguments, w.args))
    raise TypeError(pattern)


def is_data(scope: Scope, tree: Tree) -> bool:
    """Whether a type has values, or is a proposition."""
    match tree:
        case Operation('×', left, right):
            return is_data(scope, left) and is_data(scope, right)
        case Name() | Apply(Name(), _):
            name = tree.name if isinstance(tree, Name) else tree.function.name  # type: ignore
            if name in DATA:
                return True
            if name in PROPOSITIONS or name in scope.definitions.primitives:
                return False
            home, found = type_of(scope, name)
            if isinstance(found, Parametrised):
                return not found.is_proposition
            if found is None:
                return True
            statement = home.module.statements.get(name, '')
            if statement.startswith('Type') and name in home.module.equations:
                patterns, body = home.module.equations[name][0]
                return bool(patterns) or is_data(home, body)
            return False
    return False


def type_of(scope: Scope, name: str) -> tuple[Scope, Any]:
    """The record or data type of a name, its equations if it is another definition, or None."""
    module = scope.module
    if name in module.types:
        return scope, module.types[name]
    if name in module.equations:
        return scope, module.equations[name]
    use = module.uses.get(name)
    if use and scope.definitions.path(use.crate, use.module):
        return type_of(scope.definitions.scope(use.crate, use.module), use.name)
    return scope, None


def variants(of: Any) -> list[Any] | None:
    """All values of a type, if it has few and without arguments."""
    if of is None:
        return None
    scope, tree = of
    if not isinstance(tree, Name):
        return None
    if tree.name == 'Bool':
        return [True, False]
    use = scope.module.uses.get(tree.name)
    if use is None or 'declared' not in use.module:
        return None
    names = scope.definitions.enumeration(use.crate, use.name)
    return names and [Con(name, (), True) for name in names]


# What record types were found to be: their fields, each with whether it is data and its function.
Fields = list[tuple[str, bool, Callable, list[str], Any]]
FIELDS: dict[int, tuple[Parametrised, Fields]] = {}


def fields_of(scope: Scope, of: Parametrised) -> Fields:
    """The fields of a record that is a proposition."""
    if id(of) not in FIELDS:
        known, found = list(of.parameters), []
        for name, tree in of.parts:
            found.append((name, is_data(scope, tree), list(known), tree))
            known.append(name)
        FIELDS[id(of)] = of, found  # type: ignore
    return FIELDS[id(of)][1]


def steps(goal: Any, late: bool) -> Iterator[list[Any]]:
    """The ways to a goal, each a list of goals."""
    goal = force(goal)
    witness = None
    if goal.kind == 'witnessed':
        witness, goal = goal.parts[1], force(goal.parts[0])
    if type(goal) is not Prop:
        raise Undefined(f'no proposition: {plain(goal)!r}')
    kind, parts = goal.kind, goal.parts
    if kind == 'true':
        yield []
    elif kind == 'false':
        return
    elif kind == 'and':
        yield [parts[0], parts[1]]
    elif kind == 'or':
        yield [parts[0]]
        yield [parts[1]]
    elif kind == 'equal':
        begun = False
        try:
            for _ in equal(parts[0], parts[1], late):
                begun = True
                yield []
        except Stuck:
            pieces = None if begun else pairs_of(peek(parts[0]), peek(parts[1]))
            if pieces is None:
                raise
            yield pieces
    elif kind == 'not':
        if not holds([parts[0]]):
            yield []
    elif kind == 'implies':
        if holds([parts[0]]):
            yield [parts[1]]
        else:
            yield []
    elif kind == 'exists':
        yield [parts[1](Var(parts[0]))]
    elif kind == 'all':
        values = variants(parts[0])
        if values is not None:
            yield [parts[1](v) for v in values]
        elif for_each(goal, Var.made + 1):
            yield []
    elif kind == 'test':
        if force(parts[0]):
            yield []
    elif kind == 'native':
        yield from parts[0](late)
    elif kind == 'type':
        yield from type_steps(parts[0], parts[1], parts[2], witness)
    else:
        raise Undefined(f'no proposition: {kind}')


def pairs_of(a: Any, b: Any) -> list[Any] | None:
    """Two values of one form that are not known yet, as goals that their parts are the same; None
    if they are not such."""
    if type(a) is Con and type(b) is Con and a.args and a.name == b.name:
        return [Prop('equal', x, y) for x, y in zip(a.args, b.args)]
    if type(a) is Cons and type(b) is Cons and type(peek(a.head)) is not int:
        return [Prop('equal', a.head, b.head), Prop('equal', a.tail, b.tail)]
    if type(a) is tuple and type(b) is tuple:
        return [Prop('equal', x, y) for x, y in zip(a, b)]
    if isinstance(a, dict) and isinstance(b, dict) and not isinstance(a, Open) \
            and not isinstance(b, Open):
        return [Prop('equal', a[key], b[key]) for key in a]
    return None


def for_each(goal: Any, first: int, of: Any = None) -> bool:
    """Whether a goal holds for all values of the unknowns from a serial on: nothing meets what it
    denies, or each way to its premises leads to its conclusion."""
    goal = force(goal)
    kind, parts = goal.kind, goal.parts
    if kind == 'all':
        variable = Var(parts[0])
        return for_each(parts[1](variable), first, (parts[0], parts[1]))
    if kind == 'not':
        return not holds([parts[0]], first)
    if kind != 'implies':
        return for_numbers(of, first)
    premises = []
    while type(goal) is Prop and goal.kind == 'implies':
        premises.append(goal.parts[0])
        goal = force(goal.parts[1])
        while goal.kind == 'all':
            goal = force(goal.parts[1](Var(goal.parts[0])))
    mark = len(TRAIL)
    for _ in solve(premises):
        asked = [it for it, _ in TRAIL[mark:] if type(it) is Var and it.serial < first]
        if asked:
            raise Stuck(asked[0])
        if not holds([goal], first):
            undo(mark)
            return False
    undo(mark)
    return True


# A statement on all numbers without a premise is tried for those below the first of these, and for
# the second.
NUMBERS = 600, 10 ** 6


def for_numbers(of: Any, first: int) -> bool:
    """Whether a goal holds for many numbers."""
    if of is None or not (isinstance(of[0][1], Name) and of[0][1].name == 'ℕ'):
        raise Undefined('a statement on all values of a type')
    scope = of[0][0]
    scope.definitions.passed[scope.module.crate, scope.module.name, 'ℕ', 'many numbers tried'] += 1
    return all(holds([of[1](n)], first) for n in [*range(NUMBERS[0]), NUMBERS[1]])


def between(goals: list[Any]) -> tuple[Any, list[Any]] | None:
    """An unknown number that goals bound from both sides, and the numbers between."""
    lows: dict[int, int] = {}
    highs: dict[int, tuple[Var, int]] = {}
    for goal in goals:
        goal = peek(goal)
        while type(goal) is Prop and goal.kind == 'witnessed':
            goal = peek(goal.parts[0])
        if type(goal) is not Prop or goal.kind != 'test' or goal.parts[0].source < 0 \
                or goal.parts[0].work is None:
            continue
        scope, tree = SOURCES[goal.parts[0].source]
        if not isinstance(tree, Operation):
            continue
        names = environment(goal.parts[0])
        left, right = (peek(scope.thunk_of(each, names)) for each in (tree.left, tree.right))
        more = tree.operator == '<'
        if type(left) is int and type(right) is Var:
            lows[id(right)] = max(lows.get(id(right), 0), left + more)
        if type(left) is Var and type(right) is int:
            high = min(right - more, highs.get(id(left), (left, right))[1])
            highs[id(left)] = left, high
    for key, (variable, high) in highs.items():
        if high - lows.get(key, 0) <= 600:
            return variable, [lambda n=n: n for n in range(lows.get(key, 0), high + 1)]  # type: ignore
    return None


def type_steps(scope: Scope, of: Parametrised, args: tuple, witness: Any) -> Iterator[list[Any]]:
    """The ways to a record, all of its fields, or to a data type, one of its constructors."""
    definitions, key = scope.definitions, (scope.module.crate, scope.module.name, of.name)
    if key in definitions.guides:
        for _ in definitions.guides[key](*args):
            yield from parts_steps(scope, of, args, witness)
        return
    yield from parts_steps(scope, of, args, witness)


def parts_steps(scope: Scope, of: Parametrised, args: tuple, witness: Any) -> Iterator[list[Any]]:
    """The same, after a guide has proposed what is not known."""
    names = dict(zip(of.parameters, args))
    definitions, module = scope.definitions, scope.module
    if of.kind == 'record':
        goals = []
        for name, data, known, tree in fields_of(scope, of):
            if (module.crate, module.name, of.name, name) in definitions.skipped:
                definitions.passed[module.crate, module.name, of.name, name] += 1
                names = {**names, name: Open()}
                continue
            at = field(witness, name) if witness is not None else None
            if data:
                names = {**names, name: Var((scope, tree)) if at is None else at}
            else:
                proof = Open() if at is None else at
                inside = {n: names[n] for n in known}
                goals.append(Prop('witnessed', scope.thunk_of(tree, inside), proof))
                names = {**names, name: proof}
        yield goals
        return
    for _, tree in of.parts:
        goals, inside = [], names
        while isinstance(tree, (Operation, syntax.Bound)) and tree.operator == '→':
            if isinstance(tree, syntax.Bound):
                value: Any = Var((scope, tree.type))
                if not is_data(scope, tree.type):
                    value = Open()
                    goals.append(Prop('witnessed', scope.thunk_of(tree.type, inside), value))
                inside = {**inside, tree.name: value}
                tree = tree.body
            else:
                goals.append(scope.thunk_of(tree.left, inside))
                tree = tree.right
        yield goals


def solve(goals: list[Any]) -> Iterator[None]:
    """The ways to all goals."""
    if not goals:
        yield
        return
    asked: tuple[Any, list[Any]] | None = None
    by_goal = False
    choices: list[int] = []
    for late in (False, True):
        for i, goal in enumerate(goals):
            if late and i not in choices:
                continue
            mark = len(TRAIL)
            begun = False
            try:
                if not late and is_choice(goal):
                    choices.append(i)
                    continue
                others = goals[:i] + goals[i + 1:]
                for more in steps(goal, late):
                    begun = True
                    yield from solve(more + others)
                undo(mark)
                return
            except Stuck as stuck:
                undo(mark)
                if begun:
                    raise
                if not late:
                    choices.append(i)
                if not by_goal:
                    forms = forms_of(stuck)
                    if forms and is_keyword(goal, stuck):
                        asked = stuck.variable, forms
                        break
                    # what a relation goes on by comes before what a value is computed of
                    if forms and (asked is None or peek(goal) is None):
                        asked, by_goal = (stuck.variable, forms), peek(goal) is None
        else:
            continue
        break
    asked = asked or between(goals)
    if asked is None:
        if TOLD is not None:
            TOLD(goals)
        raise Stuck()
    mark = len(TRAIL)
    for form in asked[1]:
        bind(asked[0], form())
        yield from solve(goals)
        undo(mark)


def is_keyword(goal: Any, stuck: Stuck) -> bool:
    """Whether a goal is that something is the word of an unknown constructor. That is tried before
    any choice, since it is wrong for all but one of them."""
    v = peek(goal)
    return type(v) is Prop and v.kind == 'equal' and len(stuck.patterns or []) > 5 \
        and all(type(each) is syntax.Form for each in stuck.patterns or [])


# Is told the goals that all wait, if somebody wants to know.
TOLD: Callable[[list[Any]], None] | None = None


def is_choice(goal: Any) -> bool:
    """Whether a goal has several ways."""
    v = peek(goal)
    while type(v) is Prop and v.kind == 'witnessed':
        v = peek(v.parts[0])
    return type(v) is Prop and (v.kind == 'or' or v.kind == 'type' and v.parts[1].kind == 'data')


def forms_of(stuck: Stuck) -> list[Callable[[], Any]] | None:
    """The forms that the unknown can have which a goal waits for: the values of its type if these
    are few, or those that the definition has cases for that asked, if it has no case for all
    others."""
    if stuck.variable is None:
        return None
    values = variants(stuck.variable.type)
    if values is not None:
        return [lambda v=v: v for v in values]  # type: ignore
    found: dict[Any, Callable[[], Any]] = {}
    others = False
    for pattern in stuck.patterns or []:
        match pattern:
            case syntax.Literal(value):
                found.setdefault(('value', value), lambda value=value: value)
            case syntax.Empty():
                found.setdefault('empty', lambda: NIL)
            case syntax.Link():
                found.setdefault('link', lambda: Cons(Var(), Var()))
            case syntax.Form(name, arguments) if name != 'suc':
                found.setdefault(name, lambda name=name, n=len(arguments):
                                 Con(name, tuple(Var() for _ in range(n))))
            case _:
                others = True
    if others and not ('empty' in found and 'link' in found):
        return None
    return list(found.values()) or None


def holds(goals: list[Any], first: int = 0) -> bool:
    """Whether there is a way. Unknowns from before, or from before a serial, must not matter to
    it."""
    mark, first = len(TRAIL), first or Var.made + 1
    for _ in solve(goals):
        asked = [it for it, _ in TRAIL[mark:] if type(it) is Var and it.serial < first]
        undo(mark)
        if asked:
            raise Stuck(asked[0])
        return True
    undo(mark)
    return False
