"""What `make check` tries: vectors, worked examples, and random lines beside a program."""
from __future__ import annotations

import collections
import concurrent.futures
import os
import resource
import time

from . import beside, examples, vectors
from .machine import load, with_room

# Every so many vectors are tried, unless all are asked for: files of peers and asmaps take long.
PARTS = {'addresses': 2, 'places': 4, 'records': 1, 'messages': 1, 'asmaps': 6, 'tables': 12, 'peers': 48}


def in_room(job: tuple) -> tuple[str, collections.Counter[str], list[str], dict[str, str]]:
    """Some vectors or the examples of a module, in a thread with room for deep recursion."""
    root, folder, kind, part, of = job
    got: list[tuple] = []

    def main() -> int:
        if not beside.LOADED:
            beside.prepare(root)
        definitions = beside.LOADED[0]
        if kind == 'examples':
            found = examples.Examples()
            for crate, name in part:
                examples.check_module(definitions, crate, name, found)
            got.append(('examples', found.counts, found.wrong, found.undecided))
        else:
            counts, wrong = vectors.check(definitions, folder, [kind], part, of)
            got.append(('vectors', counts, wrong, {}))
        return 0
    with_room(main)
    return got[0] if got else ('vectors', collections.Counter(), [f'{kind}: no answer'], {})


def check(root: str, folder: str, program: list[str] | None, lines: int, seed: int, processes: int,
          whole: bool) -> int:
    """Tries all, and prints what came of it; 1 if something differs."""
    start = time.time()
    processes = processes or os.cpu_count() or 1
    jobs: list[tuple] = []
    for kind, parts in PARTS.items():
        if whole:
            jobs += [(root, folder, kind, i, parts) for i in range(parts)]
        else:
            jobs.append((root, folder, kind, 0, parts))
    found = examples.modules(load(root))
    count = 4 * processes
    jobs += [(root, folder, 'examples', found[i::count], 1) for i in range(count)]
    counts: dict[str, collections.Counter[str]] = {
        'vectors': collections.Counter(), 'examples': collections.Counter()}
    wrong: list[str] = []
    undecided: dict[str, str] = {}
    with concurrent.futures.ProcessPoolExecutor(processes) as pool:
        for what, some, bad, open_ in pool.map(in_room, jobs):
            counts[what] += some
            wrong += bad
            undecided.update(open_)
    print('vectors: ' + ', '.join(f'{kind} {n}' for kind, n in counts['vectors'].items()), flush=True)
    print('worked examples: ' + ', '.join(f'{kind} {n}' for kind, n in counts['examples'].items()))
    for name, why in sorted(undecided.items()):
        print(f'not decided: {name}: {why}')
    few: list[str] = []
    if lines:
        drawn = beside.random_logs(root, seed, lines, [program] if program else [], processes)
        wrong += drawn.differences
        few = beside.too_few(drawn)
        print(f'{drawn.lines} random lines beside {program[0] if program else "nothing"}, '
              f'{len(drawn.used)} definitions, {drawn.compared} answers of the index compared')
        for each in few:
            print('too few replies: ' + each)
    for each in wrong:
        print('wrong: ' + each)
    used = resource.getrusage(resource.RUSAGE_CHILDREN)
    print(f'{len(wrong)} wrong; {time.time() - start:.0f} s, {used.ru_utime + used.ru_stime:.0f} s of '
          'processors')
    return 1 if wrong or few else 0
