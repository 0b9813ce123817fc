"""The sub-commands of `tools/definitions`."""
from __future__ import annotations

import argparse
import collections
import json
import os
import random
import sys
import time
from typing import Any

from . import beside, checking, edits, plants, runs
from .judge import Judge, run_program
from .machine import Replay, load, with_room
from .values import Con, Done, Stuck, Undefined, apply, byte_list, listed, plain, settle

HERE = os.path.dirname(os.path.dirname(os.path.abspath(__file__)))


def value_of(x: Any) -> Any:
    """A value of JSON: a number, a test, a list, a record, a text as its bytes, `{"bytes": HEX}`,
    `{"con": NAME, "args": [..]}` or `{"pair": [..]}`."""
    if isinstance(x, str):
        return byte_list(x.encode())
    if isinstance(x, list):
        return listed(map(value_of, x))
    if isinstance(x, dict):
        if set(x) == {'bytes'} and isinstance(x['bytes'], str):
            return byte_list(bytes.fromhex(x['bytes']))
        if 'con' in x:
            return Con(x['con'], tuple(map(value_of, x.get('args', []))))
        if set(x) == {'pair'}:
            return tuple(map(value_of, x['pair']))
        return Done((k, value_of(v)) for k, v in x.items())
    return x


def evaluate(arguments: argparse.Namespace) -> int:
    """Prints the value of a definition."""
    definitions = load(arguments.crates, exact=arguments.exact)
    args: list[Any] = []
    if arguments.arguments:
        with open(arguments.arguments, encoding='utf-8') as file:
            args = json.load(file)
    found = apply(definitions.value(arguments.name), *map(value_of, args))
    print(json.dumps(plain(settle(found)), ensure_ascii=False))
    return 0


def replay(arguments: argparse.Namespace) -> int:
    """Carries out the log on standard input, from empty tables on."""
    definitions = load(arguments.crates, exact=arguments.exact)
    session = Replay(definitions, bytes.fromhex(arguments.key))
    for number, line in enumerate(sys.stdin.buffer.read().split(b'\n'), 1):
        if not line:
            continue
        reply = session.line(line)
        if reply is None:
            print(f'log line {number}: {session.fault(line)}', file=sys.stderr)
            return 3
        sys.stdout.buffer.write(reply)
        sys.stdout.buffer.flush()
    return 0


def random_lines(arguments: argparse.Namespace) -> int:
    """Random lines beside programs."""
    programs = [[os.path.abspath(each)] for each in arguments.program]
    if arguments.reference:
        programs.append([sys.executable, os.path.join(HERE, 'reference')])
    start = time.time()
    found = beside.random_logs(arguments.crates, arguments.seed, arguments.lines, programs,
                               arguments.processes)
    few = beside.too_few(found) if found.lines >= 1000 else []
    for difference in found.differences:
        print(difference)
    print(f'{found.lines} random lines, {len(found.differences)} differences; {len(found.used)} '
          f'definitions; {found.seconds:.0f} s of processors, {time.time() - start:.0f} s; '
          f'{found.compared} answers of the index compared')
    print('replies: ' + ', '.join(f'{kind} {n}' for kind, n in sorted(found.kinds.items())))
    for each in few:
        print('too few replies: ' + each)
    return 1 if found.differences or few else 0


def check(arguments: argparse.Namespace) -> int:
    """Vectors, worked examples, and random lines beside a program."""
    program = [os.path.abspath(arguments.program)] if arguments.program else None
    return checking.check(arguments.crates, os.path.join(HERE, 'vectors'), program, arguments.lines,
                          arguments.seed, arguments.processes, arguments.all)


def judge(arguments: argparse.Namespace) -> int:
    """Judges runs of a program: one run, or those of rows."""
    program = [os.path.abspath(arguments.program)]
    if arguments.words:
        files = {}
        for name in sorted(os.listdir('.')):
            if os.path.isfile(name):
                with open(name, 'rb') as file:
                    files[name] = file.read()
        log = b'' if sys.stdin.isatty() else sys.stdin.buffer.read()
        seen = run_program(program, arguments.words, log, files)
        got: list[Any] = []

        def main_() -> int:
            got.append(Judge(load(arguments.crates)).judge(seen))
            return 0
        with_room(main_)
        print(f'{got[0].verdict}: {got[0].request} {got[0].why}')
        for each in got[0].passed:
            print('passed over: ' + each)
        return 1 if got[0].verdict == 'wrong' else 0
    inputs = list(runs.row_inputs(arguments.rows))
    random.Random(arguments.seed).shuffle(inputs)
    found = runs.many(arguments.crates, program, inputs[:arguments.runs], arguments.processes,
                      arguments.seconds)
    for (command, verdict), count in sorted(found.counts.items()):
        print(f'{command}: {verdict} {count}')
    for why, count in found.not_judged.most_common():
        print(f'not judged: {count} {why}')
    for each, count in sorted(found.passed.items()):
        print(f'passed over: {each} {count}')
    for each in found.wrong:
        print('wrong: ' + each)
    totals: collections.Counter[str] = collections.Counter()
    for (_, verdict), count in found.counts.items():
        totals[verdict] += count
    print(f'{totals["right"]} runs right, {totals["wrong"]} wrong, {totals["not judged"]} not judged')
    return 1 if found.wrong else 0


def plant(arguments: argparse.Namespace) -> int:
    """Wrong definitions, and what shows each."""
    program = [os.path.abspath(arguments.program)]
    logs: list[Any] = []

    def draw() -> int:
        logs.extend(plants.drawn_logs(arguments.crates, program, arguments.seed, arguments.logs))
        return 0
    with_room(draw)
    setting = plants.Setting(arguments.crates, os.path.join(HERE, 'vectors'), program, logs)
    return 1 if plants.check(setting, arguments.processes, arguments.only) else 0


def edit(arguments: argparse.Namespace) -> int:
    """Programs with the mistakes of must-fail edits, and the run that shows each."""
    return edits.check(arguments.crates, os.path.join(HERE, 'bin', 'edits'), arguments.names,
                       arguments.processes, arguments.runs)


def main(words: list[str]) -> int:
    """Runs a sub-command."""
    parser = argparse.ArgumentParser(prog='definitions', description='Evaluates the definitions.')
    parser.add_argument('--crates', default=os.path.join(HERE, 'crates'), help='the crates that are read')
    parser.add_argument('--exact', action='store_true', help='without an index of slots')
    commands = parser.add_subparsers(required=True)
    one = commands.add_parser('eval', help='a definition of the arguments in a file of JSON')
    one.add_argument('name', help='crate.Module.name')
    one.add_argument('arguments', nargs='?')
    one.set_defaults(run=evaluate)
    one = commands.add_parser('replay', help='carries out the log on standard input')
    one.add_argument('--key', required=True)
    one.set_defaults(run=replay)
    one = commands.add_parser('random', help='random lines beside programs')
    one.add_argument('--seed', type=int, default=2)
    one.add_argument('--lines', type=int, default=1000)
    one.add_argument('--processes', type=int, default=0)
    one.add_argument('--reference', action='store_true', help='beside reference/ too')
    one.add_argument('program', nargs='*')
    one.set_defaults(run=random_lines)
    one = commands.add_parser('check', help='vectors, worked examples, random lines')
    one.add_argument('program', nargs='?')
    one.add_argument('--lines', type=int, default=1000)
    one.add_argument('--seed', type=int, default=2)
    one.add_argument('--processes', type=int, default=0)
    one.add_argument('--all', action='store_true', help='all vectors, also those that take long')
    one.set_defaults(run=check)
    one = commands.add_parser('judge', help='judges runs of a program')
    one.add_argument('--program', required=True)
    one.add_argument('--runs', type=int, default=2000)
    one.add_argument('--seed', type=int, default=1)
    one.add_argument('--seconds', type=int, default=30, help='for each run')
    one.add_argument('--processes', type=int, default=0)
    one.add_argument('--rows', nargs='*', default=[], help='files of rows, all if none is named')
    one.add_argument('words', nargs='*', help='the arguments of one run in this folder')
    one.set_defaults(run=judge)
    one = commands.add_parser('plants', help='wrong definitions, and what shows each')
    one.add_argument('program')
    one.add_argument('--seed', type=int, default=3)
    one.add_argument('--logs', type=int, default=8)
    one.add_argument('--only', default='', help='those of modules with this in their names')
    one.add_argument('--processes', type=int, default=0)
    one.set_defaults(run=plant)
    one = commands.add_parser('edits', help='programs with mistakes, and the run that shows each')
    one.add_argument('names', nargs='*')
    one.add_argument('--runs', type=int, default=120, help='at most, for each')
    one.add_argument('--processes', type=int, default=0)
    one.set_defaults(run=edit)
    arguments = parser.parse_args(words)

    def run() -> int:
        try:
            return arguments.run(arguments)
        except (Stuck, Undefined) as fault:
            print(f'not evaluated: {fault or "all goals wait"}', file=sys.stderr)
            return 2
    if arguments.run not in (evaluate, replay):     # these use processes of their own
        return run()
    return with_room(run)
