"""JSON, as the crates `json` and `serde_json` read and write it: a part of the table of primitives.

Python's own module reads; what that takes besides RFC 8259 is refused here. The tokens of a value are
the value itself, since the definitions only hand them on to what writes them."""
from __future__ import annotations

import json
import math
from typing import Any, Callable

from .values import (FALSE, NONE, TRUE, Con, Prop, Undefined, apply, byte_list, elements, force,
                     items, listed, octets, some)

CONSTRUCTORS = ['null', 'boolean', 'number', 'string', 'array', 'object', 'item', 'no_items', 'member',
                'no_members', 'unsigned', 'negative', 'float']


class Bad(Exception):
    """The text is none."""


def refused(text: str) -> Any:
    """`NaN` and `Infinity` are no JSON."""
    raise Bad


def parsed(data: bytes, depth: int) -> Any:
    """The value of a text, with objects as lists of pairs and numbers as text; Bad if it is none, or
    nests deeper."""
    try:
        text = data.decode('utf-8', 'surrogateescape')
        value = json.loads(text, object_pairs_hook=lambda pairs: ('object', pairs),
                           parse_int=lambda s: ('number', s), parse_float=lambda s: ('number', s),
                           parse_constant=refused)
    except (ValueError, RecursionError):
        raise Bad from None
    if depth_of(value) > depth:
        raise Bad
    return value


def depth_of(value: Any) -> int:
    """How deep arrays and objects nest."""
    if isinstance(value, list):
        return 1 + max(map(depth_of, value), default=0)
    if isinstance(value, tuple) and value[0] == 'object':
        return 1 + max((depth_of(v) for _, v in value[1]), default=0)
    return 0


def string_bytes(text: str) -> bytes:
    """The bytes of a string; half of a pair of surrogates is none."""
    try:
        return text.encode('utf-8', 'surrogateescape')
    except UnicodeEncodeError:
        raise Bad from None


def chain(name: str, end: str, parts: list[tuple[Any, ...]]) -> Con:
    """Items or members, one after another."""
    found = Con(end, (), True)
    for part in reversed(parts):
        found = Con(name, (*part, found))
    return found


def tree(value: Any, number: Callable[[str], Con], unique: bool) -> Con:
    """A value as a tree of constructors; with each name of an object once, in order, if `unique`."""
    if value is None:
        return Con('null', (), True)
    if isinstance(value, bool):
        return Con('boolean', (value,))
    if isinstance(value, str):
        return Con('string', (byte_list(string_bytes(value)),))
    if isinstance(value, list):
        return Con('array', (chain('item', 'no_items', [(tree(v, number, unique),) for v in value]),))
    kind, of = value
    if kind == 'number':
        return number(of)
    pairs = [(string_bytes(k), tree(v, number, unique)) for k, v in of]
    if unique:
        pairs = sorted(dict(pairs).items())
    members = [(byte_list(k), v) for k, v in pairs]
    return Con('object', (chain('member', 'no_members', members),))


def number_text(text: str) -> Con:
    """A number by its text."""
    return Con('number', (byte_list(text.encode()),))


def number_value(text: str) -> Con:
    """A number: an integer of 64 bits, or a float, which has to be finite."""
    sign, digits = text.startswith('-'), text.lstrip('-')
    if digits.isdigit():
        n = int(digits)
        if not sign and n < 1 << 64:
            return Con('number', (Con('unsigned', (n,)),))
        if sign and 0 < n <= 1 << 63:
            return Con('number', (Con('negative', (Con('negsuc', (n - 1,)),)),))
    value = float(text)
    if math.isinf(value):
        raise Bad
    return Con('number', (Con('float', (text,)),))


def document(data: Any) -> Con:
    """The value that a text is, by `json`."""
    try:
        return some(tree(parsed(octets(data), 128), number_text, False))
    except Bad:
        return NONE


def read(data: Any) -> Con:
    """The value that a text is, by `serde_json`."""
    try:
        return some(tree(parsed(octets(data), 127), number_value, True))
    except Bad:
        return NONE


def of_json(value: Any) -> Con:
    """A value of `json` as one of `serde_json`."""
    try:
        return some(tree(plain_of(value), number_value, True))
    except Bad:
        return NONE


def plain_of(value: Any) -> Any:
    """A tree of `json` as `parsed` gives it."""
    value = force(value)
    name = value.name
    if name == 'null':
        return None
    if name == 'boolean':
        return force(value.args[0])
    if name == 'number':
        return 'number', octets(value.args[0]).decode()
    if name == 'string':
        return octets(value.args[0]).decode('utf-8', 'surrogateescape')
    if name == 'array':
        return [plain_of(part[0]) for part in parts_of(value.args[0])]
    return 'object', [(octets(k).decode('utf-8', 'surrogateescape'), plain_of(v))
                      for k, v in parts_of(value.args[0])]


def parts_of(value: Any) -> list[tuple[Any, ...]]:
    """The items, or the members, of a chain."""
    found = []
    value = force(value)
    while value.name in ('item', 'member'):
        found.append(value.args[:-1])
        value = force(value.args[-1])
    return found


def quoted(data: Any) -> bytes:
    """A string with the shortest escapes."""
    out = bytearray(b'"')
    short = {8: b'\\b', 9: b'\\t', 10: b'\\n', 12: b'\\f', 13: b'\\r', 34: b'\\"', 92: b'\\\\'}
    for b in octets(data):
        out += short.get(b) or (b'\\u%04x' % b if b < 32 else bytes([b]))
    return bytes(out + b'"')


def compact(value: Any) -> bytes:
    """The text of a value without spaces."""
    value = force(value)
    name = value.name
    if name == 'null':
        return b'null'
    if name == 'boolean':
        return b'true' if force(value.args[0]) else b'false'
    if name == 'number':
        return number_bytes(value.args[0])
    if name == 'string':
        return quoted(value.args[0])
    if name == 'array':
        return b'[' + b','.join(compact(part[0]) for part in parts_of(value.args[0])) + b']'
    return b'{' + b','.join(quoted(k) + b':' + compact(v) for k, v in parts_of(value.args[0])) + b'}'


def number_bytes(of: Any) -> bytes:
    """The text of a number of either crate."""
    of = force(of)
    if type(of) is not Con:
        return octets(of)
    if of.name == 'unsigned':
        return str(force(of.args[0])).encode()
    if of.name == 'negative':
        return str(-1 - force(force(of.args[0]).args[0])).encode()
    raise Undefined('the text of a float')


def pretty(value: Any, depth: int = 0) -> bytes:
    """The text of a value, two spaces deeper for each bracket."""
    value = force(value)
    if value.name not in ('array', 'object'):
        return compact(value)
    line = b'\n' + b'  ' * (depth + 1)
    array = value.name == 'array'
    rows = [pretty(part[0], depth + 1) if array else quoted(part[0]) + b': ' + pretty(part[1], depth + 1)
            for part in parts_of(value.args[0])]
    opening, closing = (b'[', b']') if array else (b'{', b'}')
    if not rows:
        return opening + closing
    return opening + line + (b',' + line).join(rows) + b'\n' + b'  ' * depth + closing


def get(name: Any, value: Any) -> Con:
    """The last member of a name."""
    value = force(value)
    if value.name != 'object':
        return NONE
    wanted, found = octets(name), NONE
    for key, of in parts_of(value.args[0]):
        if octets(key) == wanted:
            found = some(of)
    return found


def as_kind(kind: str) -> tuple[int, Callable]:
    """What a value of a kind has, None for others."""
    def run(value: Any) -> Con:
        value = force(value)
        return some(value.args[0]) if value.name == kind else NONE
    return 1, run


def is_utf8(data: Any) -> Prop:
    """That bytes are UTF-8."""
    try:
        octets(data).decode()
        return TRUE
    except UnicodeDecodeError:
        return FALSE


def data_items(xs: Any) -> Con:
    """A list of values as items."""
    return chain('item', 'no_items', [(x,) for x in items(xs)])


def lookup(p: Any, entries: Any) -> Con:
    """The value of the first entry whose key passes a test."""
    for entry in elements(entries):
        key, value = force(entry)
        if force(apply(p, key)):
            return some(value)
    return NONE


def insert_entry(same: Any, entries: Any, key: Any, value: Any) -> Any:
    """The entries with a value under a key: at its place, or at the end."""
    got = [force(each) for each in items(entries)]
    for i, (k, _) in enumerate(got):
        if force(apply(same, key, k)):
            return listed(got[:i] + [(k, value)] + got[i + 1:])
    return listed(got + [(key, value)])


def ordering(a: Any, b: Any) -> Con:
    """The order of two values of Python."""
    return Con('Less' if a < b else 'Equal' if a == b else 'Greater', (), True)


def slice_cmp(compare: Any, a: Any, b: Any) -> Con:
    """The order of two lists, by that of their elements."""
    xs, ys = items(a), items(b)
    for x, y in zip(xs, ys):
        found = force(apply(compare, x, y))
        if found.name != 'Equal':
            return found
    return ordering(len(xs), len(ys))


def sorted_by(less: Any, xs: Any) -> Prop:
    """That no element is less than the one before it."""
    def ways(late: bool) -> Any:
        got = items(xs)
        if not any(force(apply(less, b, a)) for a, b in zip(got, got[1:])):
            yield []
    return Prop('native', ways)


JSON: dict[str, Any] = {
    **{name: Con(name, (), True) for name in CONSTRUCTORS},
    'document': (1, document), 'read': (1, read), 'of_json': (1, of_json), 'json_tokens': (1, force),
    'print': (1, lambda v: byte_list(compact(v))), 'pretty': (1, lambda v: byte_list(pretty(v))),
    'compact_text': (1, lambda v: byte_list(compact(v))), 'get': (2, get),
    'as_array': as_kind('array'), 'as_object': as_kind('object'), 'as_str': as_kind('string'),
    'as_number': as_kind('number'), 'as_bool': as_kind('boolean'), 'as_u64': as_kind('unsigned'),
    'serde_json.items_of': (1, data_items), 'IsUtf8': (1, is_utf8),
    'lookup': (2, lookup), 'insert_entry': (4, insert_entry),
    'nat_cmp': (2, lambda a, b: ordering(force(a), force(b))), 'slice_cmp': (3, slice_cmp),
    'ordering_then': (2, lambda a, b: force(b) if force(a).name == 'Equal' else a),
    'is_lt': (1, lambda o: force(o).name == 'Less'), 'IsSortedBy': (2, sorted_by)}
