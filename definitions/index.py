"""Which record is at a slot, by an index of the records instead of a search of all.

The definitions have no arrays: the record at a slot is the first of all records whose slot it is,
so that a save asks 65,536 slots of every record. Here an index of a list of records is made by the
definitions of a record's slots, once. It is no definition and not proved: of every so many answers
one is computed by the definition too, and one that differs ends the run. `exact` uses no index."""
from __future__ import annotations

from typing import TYPE_CHECKING, Any, Callable

from .values import NIL, NONE, Cons, Undefined, apply, elements, field, force, items, some, walk

if TYPE_CHECKING:
    from .evaluate import Definitions

# One answer in so many is computed by the definition too.
CHECKED = 61


class Index:
    """The slots of some records: (bucket, slot) to the first record there, and the slots of each
    bucket of the new table."""

    def __init__(self, definitions: Definitions, places: Any, records: Any):
        def word(name: str) -> Callable[..., Any]:
            of = definitions.value(name)
            return lambda *args: force(apply(of, *args))

        buckets_of, is_tried = word('peer_rec.Rec.buckets_of'), word('peer_rec.Rec.is_tried')
        new_slot = word('placing.Places.new_slot')
        tried_bucket = word('placing.Places.tried_bucket')
        tried_slot = word('placing.Places.tried_slot')
        self.places, self.records = places, records
        self.new: dict[tuple[int, int], Any] = {}
        self.tried: dict[tuple[int, int], Any] = {}
        self.used: dict[int, set[int]] = {}
        for record in elements(records):
            peer = field(record, 'peer')
            for bucket in map(force, items(buckets_of(record))):
                slot = new_slot(places, peer, bucket)
                self.new.setdefault((bucket, slot), record)
                self.used.setdefault(bucket, set()).add(slot)
            if is_tried(record):
                bucket = tried_bucket(places, peer)
                self.tried.setdefault((bucket, tried_slot(places, peer, bucket)), record)


class Indexes:
    """The indexes of the lists of records that were asked last."""

    def __init__(self, definitions: Definitions, exact: bool = False, checked: int = CHECKED):
        self.definitions, self.exact, self.checked = definitions, exact, checked
        self.known: dict[tuple[int, int], Index] = {}
        self.asked = self.compared = 0

    def of(self, state: Any) -> Index | None:
        """The index of a state, None if its records are not all evaluated."""
        if self.exact:
            return None
        records, places = walk(field(state, 'records')), walk(field(state, 'places'))
        if records is not NIL and not (type(records) is Cons and records.done):
            return None
        key = id(records), id(places)
        if key not in self.known:
            if len(self.known) > 8:
                self.known.clear()
            self.known[key] = Index(self.definitions, places, records)
        return self.known[key]

    def answer(self, found: Any, by_definition: Callable[[], Any], same: Callable) -> Any:
        """The answer of an index, which now and then is compared with that of the definition."""
        self.asked += 1
        if self.asked % self.checked == 0:
            self.compared += 1
            if not same(found, force(by_definition())):
                raise Undefined('an index differs from the definition')
        return found

    def words(self) -> dict[tuple[str, str, str], Any]:
        """The words of `table_machine` that ask a slot."""
        def at_slot(name: str, table: str) -> tuple[int, Callable]:
            original = original_of(self.definitions, 'table_machine', 'State', name)

            def run(state: Any, bucket: Any, slot: Any) -> Any:
                index = self.of(state)
                if index is None:
                    return original(state, bucket, slot)
                record = getattr(index, table).get((force(bucket), force(slot)))
                found = NONE if record is None else some(record)
                return self.answer(found, lambda: original(state, bucket, slot), same_option)
            return 3, run

        listed_in = original_of(self.definitions, 'table_machine', 'Snapshot', 'listed_in')

        def in_bucket(state: Any, bucket: Any) -> Any:
            index = self.of(state)
            if index is None:
                return listed_in(state, bucket)
            if force(bucket) in index.used:
                return listed_in(state, bucket)
            return self.answer(NIL, lambda: listed_in(state, bucket), lambda a, b: a is b)

        return {('table_machine', 'State', 'new_rec_at'): at_slot('new_rec_at', 'new'),
                ('table_machine', 'State', 'tried_rec_at'): at_slot('tried_rec_at', 'tried'),
                ('table_machine', 'Snapshot', 'listed_in'): (2, in_bucket)}


def same_option(a: Any, b: Any) -> bool:
    """Whether two answers are the same record, or none."""
    return a.name == b.name and all(force(x) is force(y) for x, y in zip(a.args, b.args))


def original_of(definitions: Definitions, crate: str, module: str, name: str) -> Callable:
    """A definition itself, although its name is replaced."""
    made: list[Callable] = []

    def run(*args: Any) -> Any:
        if not made:
            made.append(definitions.scope(crate, module).compile(name))
        return made[0](*args)
    return run
