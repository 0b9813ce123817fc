"""Runs of a program, each judged by the definitions: the inputs of the rows, and random ones."""
from __future__ import annotations

import collections
import concurrent.futures
import glob
import importlib.machinery
import importlib.util
import os
import random
import sys
import time
from dataclasses import dataclass, field
from typing import Any, Iterator

from . import values
from . import draw
from .evaluate import Definitions
from .judge import Judge, Judgement, run_program
from .machine import Replay, TooLong, load, with_room, within
from .solve import holds

HERE = os.path.dirname(os.path.dirname(os.path.abspath(__file__)))

# What is longer is left out: it takes minutes here.
MOST_LOG, MOST_FILE = 6000, 40000
SECONDS = 30


@dataclass
class Input:
    """What a program is given."""
    label: str
    words: list[str]
    log: bytes
    files: dict[str, bytes]


@dataclass
class Found:
    """How runs were judged."""
    counts: collections.Counter[tuple[str, str]] = field(default_factory=collections.Counter)
    wrong: list[str] = field(default_factory=list)
    not_judged: collections.Counter[str] = field(default_factory=collections.Counter)
    passed: collections.Counter[str] = field(default_factory=collections.Counter)
    seconds: float = 0

    def add(self, other: Found) -> None:
        """Takes in others."""
        self.counts += other.counts
        self.wrong += other.wrong
        self.not_judged += other.not_judged
        self.passed += other.passed
        self.seconds += other.seconds


def script(name: str) -> Any:
    """A script of tools/ as a module."""
    sys.dont_write_bytecode = True
    loader = importlib.machinery.SourceFileLoader(name, os.path.join(HERE, 'tools', name))
    found = importlib.util.module_from_spec(importlib.util.spec_from_loader(name, loader))  # type: ignore
    loader.exec_module(found)
    return found


def row_inputs(names: list[str]) -> Iterator[Input]:
    """The inputs of the rows of these files, or of all, in which no call fails and nothing is
    long."""
    cases = script('fill_cases')
    paths = sorted(glob.glob(HERE + '/crates/addrman/rows/*.txt')
                   + glob.glob(HERE + '/crates/test_runs/data/*.txt'))
    for path in paths:
        name = os.path.basename(path)
        if names and name not in names:
            continue
        with open(path, newline='', encoding='utf-8') as file:
            found = cases.cases_of(file.read())
        for line, start, lines, one in found:
            case = cases.case_of(start + lines, one)
            if case.reads or case.writes or case.calls or case.piece != 65536 or case.unread:
                continue
            if len(case.log) > MOST_LOG or any(len(data) > MOST_FILE for data in case.files.values()):
                continue
            yield Input(f'{name}:{line}', case.arguments, case.log, case.files)


def drawn_inputs(definitions: Definitions, seed: int, count: int) -> Iterator[Input]:
    """Logs that are drawn by the definitions, and a replay of the file that each of them leaves, in
    which some records are moved to other buckets."""
    pool = draw.clusters(definitions, bytes(32))
    for i in range(count):
        replay = Replay(definitions, bytes(32))
        drawing = draw.Drawing(seed * 1000 + i, replay, pool)
        drawing.saving = i % 2 == 1
        lines = []
        for _ in range(45):
            lines.append(drawing.line().encode())
            if replay.line(lines[-1]) is None:
                lines.pop()
        log = b''.join(line + b'\n' for line in lines) + b'dump\n'
        yield Input(f'drawn {seed * 1000 + i}', ['replay', '--key', '00' * 32], log, {})
        tables = replay.state['machine']['tables']
        if len(values.items(tables['records'])) > 40:
            continue
        data = values.octets(definitions.call('session_saves.Files.file_of',
                                              values.Con('Main', (), True), tables))
        again = b'dump\nnow 1700090000\nsample 0 0 all @5:60\nresolve\ndump\n'
        yield Input(f'reopened {seed * 1000 + i}', ['replay'], again, {'peers.dat': data})


def asmap_inputs(definitions: Definitions, seed: int, count: int) -> Iterator[Input]:
    """Files of small random trees, sane or not, with as much padding as may be, or more."""
    draws = random.Random(seed)

    def con(name: str, *args: Any) -> values.Con:
        return values.Con(name, args)

    def drawn_tree(depth: int) -> values.Con:
        kind = draws.choice('RRJMMD') if depth else 'R'
        if kind == 'R':
            return con('Return', draws.choice([1, 5, 65000]))
        if kind == 'J':
            return con('Jump', drawn_tree(depth - 1), drawn_tree(depth - 1))
        if kind == 'D':
            return con('Default', draws.choice([1, 7]), drawn_tree(depth - 1))
        wanted = [draws.random() < 0.5 for _ in range(draws.choice([1, 2, 7, 8, 8]))]
        return con('Match', values.listed(wanted), drawn_tree(depth - 1))

    for i in range(count):
        # every fourth file is sane but for eight bits of padding; others end as they should
        for _ in range(60):
            tree = drawn_tree(3)
            code = definitions.call('asmap_vm.Code.code', tree)
            bits = [values.force(b) for b in values.items(code)]
            sane = holds([values.apply(definitions.value('asmap_vm.Code.IsSane'), tree)])
            if i % 4 == 1 or sane and (i % 4 or len(bits) % 8 == 0):
                break
        bits += [False] * (-len(bits) % 8 + (0 if i % 4 else 8))
        data = bytes(sum(b << k for k, b in enumerate(bits[j:j + 8])) for j in range(0, len(bits), 8))
        if i % 4 and draws.random() < 0.2:
            data = data[:-1] + bytes([data[-1] | 128])
        words = ['check'] if i % 3 else ['lookup', draws.choice(['1.2.3.4:1', '[2a01:4f8::1]:1'])]
        yield Input(f'asmap {seed}.{i}', words, b'', {'asmap.dat': data})


def judged(judge: Judge, program: list[str], given: Input, seconds: float = SECONDS) -> Judgement:
    """The judgement of one run, unless it takes too long."""
    run = run_program(program, given.words, given.log, given.files)
    if len(run.output) > MOST_FILE:
        return Judgement('not judged', 'long output')
    try:
        return within(seconds, lambda: judge.judge(run))
    except TooLong:
        values.undo(0)
        return Judgement('not judged', 'takes too long')


LOADED: list[Judge] = []


def some_runs(job: tuple[str, list[str], list[Input], float]) -> Found:
    """Judges some runs, in a thread with room for deep recursion."""
    root, program, inputs, seconds = job
    found = Found()

    def main() -> int:
        if not LOADED:
            LOADED.append(Judge(load(root)))
        for given in inputs:
            start = time.process_time()
            try:
                verdict = judged(LOADED[0], program, given, seconds)
            except TooLong:
                verdict = Judgement('not judged', 'takes too long')
            except RecursionError:
                verdict = Judgement('not judged', 'too deep')
            found.seconds += time.process_time() - start
            command = verdict.request or (given.words[0] if given.words else 'none')
            found.counts[command, verdict.verdict] += 1
            found.passed.update(verdict.passed)
            if verdict.verdict == 'wrong':
                found.wrong.append(f'{given.label}: {" ".join(given.words)[:60]}: {verdict.why}'[:300])
            elif verdict.verdict == 'not judged':
                found.not_judged[f'{command}: {verdict.why}'[:160]] += 1
        return 0
    with_room(main)
    return found


def many(root: str, program: list[str], inputs: list[Input], processes: int = 0,
         seconds: float = SECONDS) -> Found:
    """Judges runs in several processes."""
    whole = Found()
    jobs = [(root, program, inputs[i:i + 12], seconds) for i in range(0, len(inputs), 12)]
    with concurrent.futures.ProcessPoolExecutor(processes or os.cpu_count()) as pool:
        for found in pool.map(some_runs, jobs):
            whole.add(found)
    return whole
