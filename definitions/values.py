"""Values that are evaluated when they are needed, and unknowns that a search binds and frees again.

A value is a number (`int`), a test (`bool`), a list (`NIL` or `Cons`), a pair (`tuple`), a record
(`dict`), a constructor with its arguments (`Con`), a function (`Function`) or a proposition (`Prop`),
or a `Thunk` or `Var` that stands for one."""
from __future__ import annotations

from typing import Any, Callable, Iterable, Iterator


class Stuck(Exception):
    """A value is needed that is not known yet. `patterns` are all forms that the definition has
    cases for, if it is such a one that asked."""

    def __init__(self, variable: Var | None = None, patterns: list[Any] | None = None):
        super().__init__()
        self.variable, self.patterns = variable, patterns


class Undefined(Exception):
    """A definition that cannot be evaluated, by its name."""


class Con:
    """A constructor with its arguments. `done` says that these are evaluated to their ends."""
    __slots__ = ('name', 'args', 'done')

    def __init__(self, name: str, args: tuple = (), done: bool = False):
        self.name, self.args, self.done = name, args, done

    def __repr__(self) -> str:
        return ' '.join([self.name, *(repr(plain(x)) for x in self.args)])


class Cons:
    """A list by its first element and the others. `size` is its length, once it was counted."""
    __slots__ = ('head', 'tail', 'done', 'size')

    def __init__(self, head: Any, tail: Any, done: bool = False):
        self.head, self.tail, self.done, self.size = head, tail, done, None


class Nil:
    """The empty list."""
    __slots__ = ()

    def __repr__(self) -> str:
        return '[]'


NIL = Nil()


class Function:
    """A function of so many arguments, of which some may be given."""
    __slots__ = ('arity', 'call', 'args', 'name')

    def __init__(self, arity: int, call: Callable, args: tuple = (), name: str = 'λ'):
        self.arity, self.call, self.args, self.name = arity, call, args, name


class Prop:
    """A proposition by its kind: `all`, `and`, `equal`, `exists`, `false`, `implies`, `native`,
    `not`, `or`, `test`, `true`, `type` (a record or data type) or `witnessed`."""
    __slots__ = ('kind', 'parts')

    def __init__(self, kind: str, *parts: Any):
        self.kind, self.parts = kind, parts


class Var:
    """An unknown, with its type, if that is known, as (module, tree). `record` is what it is if
    one of its fields is asked for: the same at each time, since others wait for these fields."""
    __slots__ = ('value', 'type', 'serial', 'record')
    made = 0

    def __init__(self, of: Any = None):
        Var.made += 1
        self.value, self.type, self.serial, self.record = None, of, Var.made, None


class Thunk:
    """A value to be evaluated by `work`, which is None afterwards. `source` is the index of its
    tree, `tentative` says that unknowns that a search bound went into it, and `waits` is why it
    could not be evaluated when that was tried last."""
    __slots__ = ('work', 'value', 'source', 'tentative', 'waits')

    def __init__(self, work: Callable[[], Any] | None, source: int = -1):
        self.work, self.value, self.source = work, None, source
        self.tentative, self.waits = False, None


class Call:
    """A call to be made. `joins` says that it gives two lists as one."""
    __slots__ = ('function', 'args', 'joins')

    def __init__(self, function: Callable, args: tuple, joins: bool = False):
        self.function, self.args, self.joins = function, args, joins

    def __call__(self) -> Any:
        return self.function(*self.args)


class Done(dict):
    """A record that is evaluated to its ends."""


class Open(dict):
    """A record of which only the fields that were asked for are there, as unknowns."""

    def __missing__(self, key: str) -> Var:
        self[key] = Var()
        return self[key]


TRUE, FALSE = Prop('true'), Prop('false')
NONE = Con('None', (), True)

# What a search bound and evaluated, in order, so that it can be undone; with WAITS, of what it was
# noted that it waits.
TRAIL: list[tuple[Any, Any]] = []
WAITS = object()

# Whether an unknown that a search bound was read since this was last set to False.
tentative = False


def some(x: Any) -> Con:
    """`Some x`"""
    return Con('Some', (x,))


def bind(variable: Var, value: Any) -> None:
    """The unknown gets a value, until that is undone."""
    TRAIL.append((variable, None))
    variable.value = value


def undo(mark: int) -> None:
    """Everything that was bound or evaluated since then is undone."""
    while len(TRAIL) > mark:
        it, work = TRAIL.pop()
        if work is WAITS:
            it.waits = None
        else:
            it.value = None
            if work is not None:
                it.work, it.tentative = work, False


def walk(v: Any) -> Any:
    """The value behind thunks and unknowns that are bound; an unknown if it is one. What no unknown
    went into stays evaluated when a search goes back."""
    global tentative
    while True:
        kind = type(v)
        if kind is Thunk:
            work = v.work
            if work is None:
                if v.tentative:
                    tentative = True
                v = v.value
            else:
                waits = v.waits
                if waits is not None and waits.variable.value is None:
                    raise waits.with_traceback(None)
                before, tentative = tentative, False
                try:
                    found = walk(work())
                except Stuck as stuck:
                    if stuck.variable is not None:
                        v.waits = Stuck(stuck.variable, stuck.patterns)
                        if tentative:
                            TRAIL.append((v, WAITS))
                    tentative = tentative or before
                    raise
                v.value, v.work = found, None
                if tentative:
                    v.tentative = True
                    TRAIL.append((v, work))
                elif before:
                    tentative = True
                return found
        elif kind is Var:
            if v.value is None:
                return v
            tentative = True
            v = v.value
        else:
            return v


def force(v: Any) -> Any:
    """The value, which has to be known."""
    v = walk(v)
    if type(v) is Var:
        raise Stuck(v)
    return v


def need(v: Any, patterns: list[Any]) -> Any:
    """The value, which the definition has these cases for."""
    v = walk(v)
    if type(v) is Var:
        raise Stuck(v, patterns)
    return v


def peek(v: Any) -> Any:
    """The value or the unknown, None if it waits for another one."""
    try:
        return walk(v)
    except Stuck:
        return None


def elements(v: Any) -> Iterator[Any]:
    """The elements of a list, one after another."""
    v = force(v)
    while v is not NIL:
        yield v.head
        v = v.tail
        if type(v) is not Cons and v is not NIL:
            v = force(v)


def items(v: Any) -> list[Any]:
    """The elements of a list whose length is known."""
    got = []
    v = force(v)
    while v is not NIL:
        got.append(v.head)
        v = v.tail
        if type(v) is not Cons and v is not NIL:
            v = force(v)
    return got


def numbers(v: Any) -> list[int]:
    """The elements of a list of numbers."""
    got = []
    v = force(v)
    while v is not NIL:
        x = v.head
        got.append(x if type(x) is int else force(x))
        v = v.tail
        if type(v) is not Cons and v is not NIL:
            v = force(v)
    return got


def octets(v: Any) -> bytes:
    """A list of bytes."""
    return bytes(numbers(v))


def listed(xs: Iterable[Any], end: Any = NIL) -> Any:
    """A list of these elements."""
    for x in reversed(list(xs)):
        end = Cons(x, end)
    return end


def byte_list(data: bytes) -> Any:
    """A list of bytes, which is evaluated to its end."""
    end: Any = NIL
    for x in reversed(data):
        end = Cons(x, end, True)
    return end


def apply(f: Any, *xs: Any) -> Any:
    """A function or a constructor with more arguments."""
    for x in xs:
        f = force(f)
        if type(f) is Con:
            f = Con(f.name, f.args + (x,))
        else:
            args = f.args + (x,)
            f = f.call(*args) if len(args) == f.arity else Function(f.arity, f.call, args, f.name)
    return f


def field(v: Any, name: str) -> Any:
    """A field of a record, or an element of a pair by its position."""
    global tentative
    v = walk(v)
    kind = type(v)
    if kind is tuple:
        return v[int(name)]
    if kind is Var:
        if v.record is None:
            v.record = Open()
        bind(v, v.record)
        tentative = True
        v = v.record
    return v[name]


def settle(v: Any) -> Any:
    """A value evaluated to its ends. What is so already stays the same object."""
    v = walk(v)
    kind = type(v)
    if kind is Cons:
        xs, end = [], NIL
        while v is not NIL:
            if v.done:
                end = v
                break
            xs.append(settle(v.head))
            v = force(v.tail)
        for x in reversed(xs):
            end = Cons(x, end, True)
        return end
    if kind is Done:
        return v
    if isinstance(v, dict):
        return Done((k, settle(x)) for k, x in v.items())
    if kind is tuple:
        return tuple(map(settle, v))
    if kind is Con and not v.done:
        return Con(v.name, tuple(map(settle, v.args)), True)
    return v


def closed(v: Any) -> Any:
    """A value evaluated to its ends, in which nothing is unknown."""
    v = settle(v)
    todo = [v]
    while todo:
        x = todo.pop()
        kind = type(x)
        if kind is Var:
            raise Stuck(x)
        if kind is Cons and not x.done or kind is tuple:
            todo += items(x) if kind is Cons else x
        elif kind is Con:
            todo += x.args
        elif isinstance(x, dict):
            todo += x.values()
        elif kind is Cons and type(x.head) is not int:
            todo += items(x)
    return v


def frozen(v: Any) -> Any:
    """A key for a value: by contents, or by the object for what is evaluated to its ends."""
    v = force(v)
    kind = type(v)
    if kind is Done or kind is Con and v.done and v.args:
        return id(v)
    if kind is Cons or v is NIL:
        return tuple(frozen(x) for x in elements(v))
    if isinstance(v, dict):
        return tuple((k, frozen(x)) for k, x in sorted(v.items()))
    if kind is Con:
        return (v.name,) + tuple(map(frozen, v.args))
    return v


def plain(v: Any) -> Any:
    """A value for people: texts of printable bytes as such."""
    v = walk(v)
    if type(v) is Cons or v is NIL:
        xs = [plain(x) for x in elements(v)]
        if xs and all(type(x) is int and (31 < x < 127 or x == 10) for x in xs):
            return bytes(xs).decode()
        return xs
    if isinstance(v, dict):
        return {k: plain(x) for k, x in v.items()}
    if isinstance(v, tuple):
        return tuple(map(plain, v))
    if type(v) is Con:
        return {v.name: [plain(x) for x in v.args]} if v.args else v.name
    if type(v) is Function:
        return f'({v.name})'
    if type(v) is Prop:
        return f'({v.kind})'
    return '_' if type(v) is Var else v
