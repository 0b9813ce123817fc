"""What a search is told besides the definitions.

A guide proposes what is not known in a relation, and the definition then says whether it is right:
a wrong proposal is refused, and one that is missing makes the judgement of a right run wrong, never
that of a wrong run right. Only where a definition denies that there is anything do guides have to be
complete: that is so for the tree of an asmap's file, which is one by `asmap_vm/proofs`."""
from __future__ import annotations

from typing import TYPE_CHECKING, Any, Callable, Iterator

from .solve import INVERSES, solve, unify
from .values import (NIL, TRAIL, Prop, Stuck, Var, apply, byte_list, closed, force, items, listed,
                     octets, peek, settle, undo, walk)

if TYPE_CHECKING:
    from .evaluate import Definitions

# Fields that say something of all logs, or of the moments of a run that nobody sees: theorems, and
# no judgement of a run.
SKIPPED = {
    ('addrman_run', 'Replay', 'Replayed', 'fixed'): 'on all logs: one history',
    ('addrman_run', 'Replay', 'Replayed', 'causes'): 'on all lines of the log: buckets have causes',
    ('addrman_run', 'Replay', 'Replayed', 'shares'): 'on all words: shares of picks',
    ('addrman_run', 'Replay', 'Replayed', 'losses'): 'on all lines of the log: losses have causes',
    ('addrman_run', 'Replay', 'Replayed', 'opening'): 'on the records of the file that was opened',
    ('addrman_run', 'Replay', 'Replayed', 'reopens'): 'on all later logs: files open again',
    ('addrman_run', 'Opening', 'Opened', 'sound'): 'an invariant of the tables',
    ('addrman_run', 'Opener', 'OpenerRan', 'kept'): 'on all logs: the rules of open peers',
    ('addrman_run', 'Limit', 'Limited', 'apart'): 'on all numbers: connections do not matter to others',
    ('addrman_run', 'Limit', 'Limited', 'each'): 'how the replies are cut into lines',
    ('addrman_run', 'Limit', 'Limited', 'whole'): 'how the replies are cut into lines',
}


def lines_cut(log: bytes) -> list[int]:
    """The index after each line of a log, from 0 on."""
    found = [0]
    while found[-1] < len(log):
        at = log.find(b'\n', found[-1])
        found.append(at + 1 if at >= 0 else len(log))
    return found


def guides(definitions: Definitions) -> dict[tuple[str, str, str], Callable[..., Iterator[None]]]:
    """The guides of records, by crate, module and name."""

    def tree_of_file(tree: Any, data: Any) -> Iterator[None]:
        """The tree of a file is that which its bits are read as."""
        mark = len(TRAIL)
        if type(peek(tree)) is Var:
            unify(tree, settle(definitions.call('asmap_vm.TreeOf.tree_of', data)))
        yield
        undo(mark)

    def log_begins(log: Any, lines: Any, rest: Any) -> Iterator[None]:
        """A log ends a line after each line feed."""
        mark, data = len(TRAIL), octets(log)
        cuts = lines_cut(data)
        known = peek(lines)
        chosen = range(len(cuts) - 1, -1, -1)
        try:
            count = len(items(lines)) if known is not None else -1
            chosen = [count] if 0 <= count < len(cuts) else []  # type: ignore
        except Stuck:
            pass
        for count in chosen:
            cut = cuts[count]
            split = [byte_list(line) for line in data[:cut].split(b'\n')]
            if data[:cut].endswith(b'\n') or not cut:
                split.pop()
            if unify(rest, byte_list(data[cut:])) and unify(lines, listed(split)):
                yield
            undo(mark)

    return {('asmap_vm', 'Code', 'IsSaneFile'): tree_of_file,
            ('log_run', 'Log', 'BeginsWith'): log_begins}


def run_words(definitions: Definitions) -> dict[tuple[str, str, str], Any]:
    """`log_run.Run` as a loop over the lines, instead of one search within another for each. A line
    that has several replies is gone back to, if those after it do not fit."""

    def run(step: Any, old: Any, lines: Any, text: Any, new: Any) -> Prop:
        def ways(late: bool) -> Iterator[list[Any]]:
            todo = [settle(line) for line in items(lines)]
            wanted, whole = known_prefix(text)
            # for each line: the state before it, the bytes before its reply, the ways tried
            stack: list[tuple[Any, bytes, int]] = [(closed(old), b'', 0)]
            while stack:
                at, said, skip = stack[-1]
                if len(stack) > len(todo):
                    mark = len(TRAIL)
                    if (not whole or said == wanted) and unify(text, byte_list(said)) \
                            and unify(new, at):
                        yield []
                    undo(mark)
                    stack.pop()
                    continue
                found = one_step(step, at, todo[len(stack) - 1], said, wanted, whole, skip)
                if found is None:
                    stack.pop()
                    continue
                stack[-1] = at, said, skip + 1
                stack.append((found[1], said + found[0], 0))
        return Prop('native', ways)
    return {('log_run', 'Run', 'Run'): (5, run)}


def sampled_words(definitions: Definitions) -> dict[tuple[str, str, str], Any]:
    """`MeanTheSame` speaks of all addresses, and is judged at the ends of the rows alone."""

    def same_number(rows: Any, tree: Any) -> Prop:
        def ways(late: bool) -> Iterator[list[Any]]:
            ends = {0, 2 ** 128 - 1}
            for row in items(rows)[:200]:
                first, length = force(force(row)['bits']), force(force(row)['len'])
                ends |= {max(0, first - 1), first, first + 2 ** (128 - length) - 1}
            definitions.passed['addrman_run', 'Decompile', 'MeanTheSame', 'sampled'] += 1
            for n in sorted(ends):
                digits = definitions.call('bit_code.Coder.digits', 128, n)
                if definitions.call('prefix_table.Rows.best', rows, n) != \
                        definitions.call('asmap_vm.Code.meaning', tree, digits, 0):
                    return
            yield []
        return Prop('native', ways)
    return {('addrman_run', 'Decompile', 'MeanTheSame'): (2, same_number)}


def one_step(step: Any, state: Any, line: Any, said: bytes, wanted: bytes, whole: bool,
             skip: int) -> tuple[bytes, Any] | None:
    """The reply to a line and the next state, after so many others that fit."""
    mark, first, mid = len(TRAIL), Var(), Var()
    ways = solve([apply(step, state, line, first, mid)])
    found = None
    for _ in ways:
        reply = octets(first)
        after = said + reply
        fits = wanted.startswith(after) or not whole and after.startswith(wanted)
        if fits:
            if skip == 0:
                found = reply, settle(mid)
                break
            skip -= 1
    ways.close()
    undo(mark)
    return found


def known_prefix(text: Any) -> tuple[bytes, bool]:
    """The bytes that are known of a list from its start, and whether these are all."""
    got = bytearray()
    while True:
        try:
            text = walk(text)
        except Stuck:
            return bytes(got), False
        if text is NIL:
            return bytes(got), True
        if type(text) is Var:
            return bytes(got), False
        head = peek(text.head)
        if type(head) is not int:
            return bytes(got), False
        got.append(head)
        text = text.tail


def drop_back(s: list[Any], i: int, n: Any, xs: Any) -> Iterator[int]:
    """What is left of a list after some elements: the number of these."""
    known, mark = items(xs), len(TRAIL)
    left = len(s) - i
    if left <= len(known) and [force(x) for x in known[len(known) - left:]] == s[i:] \
            and unify(n, len(known) - left):
        yield len(s)
    undo(mark)


def take_back(s: list[Any], i: int, n: Any, xs: Any) -> Iterator[int]:
    """The first elements of a list: their number."""
    known, mark = [force(x) for x in items(xs)], len(TRAIL)
    for count in range(min(len(known), len(s) - i), -1, -1):
        if s[i:i + count] == known[:count] and unify(n, count):
            yield i + count
        undo(mark)


INVERSES.update({'drop': drop_back, 'take': take_back})
