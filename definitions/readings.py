"""Words that are put in the place of others, which the proofs show to be the same.

A format says which bytes encode which value, and which fault others show; found by search, each
field would be tried at each length. `wire_num.Readings` reads the same from the start: for each
word of `wire_num.Format` and `Fields` here is the one of `Readings`, and `wire_num/proofs` shows
that the two agree. So a format is its reading here, and what it says of bytes is what that gives."""
from __future__ import annotations

from typing import TYPE_CHECKING, Any, Callable, Iterator

from .solve import unify
from .values import NIL, TRAIL, Function, Prop, apply, force, undo

if TYPE_CHECKING:
    from .evaluate import Definitions


def format_of(read: Any) -> dict[str, Any]:
    """A format by its reading."""
    def spells(data: Any, value: Any) -> Prop:
        def ways(late: bool) -> Iterator[list[Any]]:
            found = force(apply(read, data))
            if found.name == 'Ok' and force(force(found.args[0])[1]) is NIL:
                yield from same(value, force(found.args[0])[0])
        return Prop('native', ways)

    def shows(data: Any, fault: Any) -> Prop:
        def ways(late: bool) -> Iterator[list[Any]]:
            found = force(apply(read, data))
            if found.name == 'Err':
                yield from same(fault, found.args[0])
        return Prop('native', ways)
    return {'read': read, 'spells': Function(2, spells), 'shows': Function(2, shows)}


def same(a: Any, b: Any) -> Iterator[list[Any]]:
    """The way in which two values are the same, if there is one."""
    mark = len(TRAIL)
    if unify(a, b):
        yield []
    undo(mark)


def read_of(of: Any) -> Any:
    """The reading of a format."""
    return force(of)['read']


def replaced(definitions: Definitions) -> dict[tuple[str, str, str], Any]:
    """The words that others are put in the place of."""
    def reading(name: str) -> Any:
        return definitions.value('wire_num.Readings.' + name)

    def word(name: str, count: int, *wrap: Callable) -> tuple[int, Callable]:
        """The format whose reading is this word of arguments, each handed on as it is or wrapped."""
        ways = wrap or (lambda x: x,) * count

        def run(*args: Any) -> dict[str, Any]:
            return format_of(apply(reading(name), *(w(a) for w, a in zip(ways, args))))
        return count, run

    def as_it_is(x: Any) -> Any:
        return x

    def sequence(p: Any, q: Any) -> dict[str, Any]:
        after = Function(2, lambda a, data: apply(read_of(apply(q, a)), data))
        return format_of(apply(reading('then_at'), read_of(p), after))

    def times(first: Any, count: Any, p: Any) -> dict[str, Any]:
        each = Function(2, lambda i, data: apply(read_of(apply(p, i)), data))
        return format_of(apply(reading('times_at'), first, count, each))

    def has_fault(p: Any, trailing: Any, data: Any, fault: Any) -> Prop:
        def ways(late: bool) -> Iterator[list[Any]]:
            found = force(apply(reading('all_of'), read_of(p), trailing, data))
            if found.name == 'Err':
                yield from same(fault, found.args[0])
        return Prop('native', ways)

    fields = {
        'some_bytes': word('bytes_at', 1), 'le': word('le_at', 1), 'be': word('be_at', 1),
        'byte': format_of(Function(1, lambda data: apply(reading('byte_at'), data))),
        'compact': format_of(Function(1, lambda data: apply(reading('compact_at'), data)))}
    formats = {
        'sequence': (2, sequence), 'value': word('value_at', 1), 'check': word('check_at', 3),
        'times': (3, times), 'map_fault': word('map_fault_at', 2, as_it_is, read_of),
        'HasFault': (4, has_fault)}
    return {**{('wire_num', 'Fields', name): of for name, of in fields.items()},
            **{('wire_num', 'Format', name): of for name, of in formats.items()}}
