"""A replay by the definitions: each line of a log is solved for its reply and the next state."""
from __future__ import annotations

import ctypes
import sys
import threading
from typing import Any, Callable

from .evaluate import Definitions
from .guides import SKIPPED, guides, run_words, sampled_words
from .index import Indexes
from .json_words import JSON
from .primitives import PRIMITIVES
from .readings import replaced
from .solve import solve
from .values import NONE, Con, Var, apply, byte_list, octets, plain, settle, undo

# Definitions that are asked again and again for the same values.
MEMORY = frozenset({
    'placing.new_bucket', 'placing.new_slot', 'placing.tried_bucket', 'placing.tried_slot',
    'net_addr.is_routable', 'net_addr.net_class', 'net_addr.in_range', 'session_saves.file_of',
    'asmap_vm.code', 'asmap_vm.tree_of'})


def load(root: str = 'crates', changes: list[tuple[str, str, str]] = [],
         exact: bool = False) -> Definitions:
    """The definitions of a tree of crates; `exact` without an index of slots."""
    definitions = Definitions(root, {**PRIMITIVES, **JSON}, replaced, MEMORY, changes)
    indexes = Indexes(definitions, exact)
    definitions.replaced.update(indexes.words())
    definitions.indexes = indexes
    definitions.replaced.update(run_words(definitions))
    definitions.replaced.update(sampled_words(definitions))
    definitions.guides.update(guides(definitions))
    definitions.skipped.update(SKIPPED)
    return definitions


def with_room(main: Callable[[], int]) -> int:
    """Runs a function with room for deep recursion, and gives its exit code."""
    found: list[int] = []
    sys.setrecursionlimit(10 ** 6)
    threading.stack_size(1 << 29)
    thread = threading.Thread(target=lambda: found.append(main()))
    thread.start()
    thread.join()
    return found[0] if found else 1


class TooLong(Exception):
    """Something took too long to be evaluated."""


def within(seconds: float, work: Callable[[], Any]) -> Any:
    """What a function gives, or TooLong after so many seconds."""
    thread = ctypes.c_ulong(threading.get_ident())
    timer = threading.Timer(seconds, lambda: ctypes.pythonapi.PyThreadState_SetAsyncExc(
        thread, ctypes.py_object(TooLong)))
    timer.start()
    try:
        return work()
    finally:
        timer.cancel()


class Replay:
    """A session by the definitions, from empty tables on."""

    def __init__(self, definitions: Definitions, key: bytes, chain: str = 'Main'):
        self.definitions = definitions
        places = {'key': byte_list(key), 'map': NONE, 'rule': Con('Bytes', (), True)}
        tables = definitions.call('table_machine.State.empty_state', places)
        machine = {'tables': tables, 'clock': 0}
        self.state: Any = settle(definitions.call('session.State.state', Con(chain, (), True),
                                                  machine, NONE))

    def line(self, line: bytes, output: bytes | None = None) -> bytes | None:
        """Carries out a line: its reply, or None if it is at fault. Where the definitions allow
        several replies, as to a save, which may fail, the one that the output begins with; without
        an output, that of a save that is done."""
        text, new, ended = Var(), Var(), Var()
        step = apply(self.definitions.value('session.State.LineStep'), self.state,
                     byte_list(line), text, new, ended)
        first = None
        ways = solve([step])
        for _ in ways:
            reply = octets(text)
            wanted = reply != b'not saved\n' if output is None else output.startswith(reply)
            if first is None or wanted:
                first = reply, settle(new)
            if wanted:
                break
        ways.close()
        undo(0)
        if first is None:
            return None
        self.state = first[1]
        return first[0]

    def fault(self, line: bytes) -> str | None:
        """What is wrong in a line, by its word in an output."""
        fault = Var()
        ways = solve([apply(self.definitions.value('log_lines.Spelling.HasCommandFault'),
                            byte_list(line), fault)])
        try:
            next(ways)
            return plain(fault).lower()
        except StopIteration:
            return None
        finally:
            ways.close()
            undo(0)
