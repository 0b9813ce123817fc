"""Random lines by the definitions beside a program: `python3 -m` is `tools/definitions random`."""
from __future__ import annotations

import collections
import concurrent.futures
import os
import subprocess
import tempfile
import time
from dataclasses import dataclass, field

from . import draw
from .machine import Replay, load, with_room
from .values import Stuck, Undefined

KEY = bytes(32)


@dataclass
class Found:
    """What some logs showed."""
    lines: int = 0
    kinds: collections.Counter[str] = field(default_factory=collections.Counter)
    differences: list[str] = field(default_factory=list)
    used: set[tuple[str, str, str]] = field(default_factory=set)
    seconds: float = 0
    compared: int = 0

    def add(self, other: Found) -> None:
        """Takes in what other logs showed."""
        self.lines += other.lines
        self.kinds += other.kinds
        self.differences += other.differences
        self.used |= other.used
        self.seconds += other.seconds
        self.compared += other.compared


def run_program(program: list[str], log: bytes, folder: str) -> tuple[bytes, str, int]:
    """What a program writes of a log, the line of its status, and its code."""
    done = subprocess.run([*program, 'replay', '--key', KEY.hex()], input=log, capture_output=True,
                          cwd=folder)
    return done.stdout, done.stderr.decode('utf-8', 'replace').split('\n')[0], done.returncode


def one_log(seed: int, lines: int, programs: list[list[str]]) -> Found:
    """Draws a log by the definitions, and compares it with the programs. Its last line is often
    one with a fault."""
    definitions = LOADED[0]
    found, start = Found(), time.process_time()
    replay = Replay(definitions, KEY)
    drawing = draw.Drawing(seed, replay, POOL)
    log, output, fault = [], b'', None
    for i in range(lines):
        line = drawing.line()
        if i == lines - 1 and drawing.random.random() < 0.7:
            line = draw.damaged(line, drawing.random)
        log.append(line.encode())
        reply = replay.line(log[-1])
        if reply is None:
            fault = replay.fault(log[-1]) or 'none'
        found.kinds[draw.kind_of(log[-1], reply, fault)] += 1
        found.lines += 1
        if reply is None:
            break
        output += reply
    for program in programs:
        with tempfile.TemporaryDirectory() as folder:
            printed, status, code = run_program(program, b''.join(l + b'\n' for l in log), folder)
            name = ' '.join(program)
            if printed != output or (code == 0) != (fault is None) or fault and fault not in status:
                at = first_difference(log, output, printed, replay)
                found.differences.append(f'seed {seed}, {name}: {at}, {status!r}')
    found.seconds = time.process_time() - start
    found.used, found.compared = definitions.used, definitions.indexes.compared
    return found


def first_difference(log: list[bytes], output: bytes, printed: bytes, replay: Replay) -> str:
    """The first line of the outputs that differs."""
    for n, (a, b) in enumerate(zip(output.split(b'\n'), printed.split(b'\n'))):
        if a != b:
            return f'line {n + 1} of the output: {a[:80]!r} by the definitions, {b[:80]!r}'
    return f'{len(output)} bytes by the definitions, {len(printed)} bytes'


def gen_log(start: int, lines: int, program: list[str]) -> Found:
    """A generated log, line by line."""
    made = subprocess.run([*program, 'gen', str(start), str(lines)], capture_output=True, check=True)
    return given_log(f'gen {start}', made.stdout, [program])


def given_log(name: str, log: bytes, programs: list[list[str]]) -> Found:
    """A log that is there, up to its first line with a fault."""
    definitions = LOADED[0]
    found, start = Found(), time.process_time()
    replay, output, fault = Replay(definitions, KEY), b'', None
    for line in log.split(b'\n')[:-1]:
        reply = replay.line(line)
        if reply is None:
            fault = replay.fault(line) or 'none'
        found.kinds[draw.kind_of(line, reply, fault)] += 1
        found.lines += 1
        if reply is None:
            break
        output += reply
    for program in programs:
        with tempfile.TemporaryDirectory() as folder:
            printed, status, code = run_program(program, log, folder)
        if printed != output or (code == 0) != (fault is None) or fault and fault not in status:
            at = first_difference([], output, printed, replay)
            found.differences.append(f'{name}, {" ".join(program)}: {at}, {status!r}')
    found.seconds = time.process_time() - start
    found.used, found.compared = definitions.used, definitions.indexes.compared
    return found


LOADED: list = []
POOL: list[list[str]] = []


def prepare(root: str) -> None:
    """Loads the definitions in a process."""
    LOADED[:] = [load(root)]
    POOL[:] = draw.clusters(LOADED[0], KEY)


def in_room(job: tuple) -> Found:
    """A job in a thread with room for deep recursion."""
    root, function, args = job
    got: list[Found] = []

    def main() -> int:
        if not LOADED:
            prepare(root)
        try:
            got.append(function(*args))
        except (Stuck, Undefined) as fault:
            got.append(Found(differences=[f'{function.__name__}{args[:2]}: not evaluated: '
                                          f'{fault or "all goals wait"}']))
        return 0
    with_room(main)
    return got[0] if got else Found(differences=[f'{function.__name__}{args[:2]}: no answer'])


def many(root: str, jobs: list[tuple], processes: int) -> Found:
    """Runs jobs in several processes."""
    whole = Found()
    with concurrent.futures.ProcessPoolExecutor(processes) as pool:
        for found in pool.map(in_room, [(root, *job) for job in jobs]):
            whole.add(found)
    return whole


def random_logs(root: str, seed: int, lines: int, programs: list[list[str]],
                processes: int = 0, length: int = 50) -> Found:
    """About so many random lines in logs of 50."""
    count = max(1, lines * 11 // 10 // length)
    jobs = [(one_log, (seed * 1000 + i, length, programs)) for i in range(count)]
    return many(root, jobs, processes or os.cpu_count() or 1)


def too_few(found: Found) -> list[str]:
    """The kinds of replies of which there are fewer than they have to be."""
    return [f'{kind}: {found.kinds[kind]} of {least * found.lines // 1000}'
            for kind, least in draw.LEAST.items()
            if found.kinds[kind] < least * found.lines // 1000]
