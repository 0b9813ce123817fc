"""Trees of the notation of the definitions, and the parser of equations, records and data types.

A file is cut into declarations by its indentation. Types of functions and implicit arguments are
passed over: they say nothing about what a definition computes. A declaration that cannot be read
keeps its cause, and whoever asks for its name gets that."""
from __future__ import annotations

import re
from dataclasses import dataclass, field
from typing import Union


@dataclass(slots=True, eq=False)
class Number:
    """A number, in decimal or hexadecimal digits."""
    value: int


@dataclass(slots=True, eq=False)
class Text:
    """A text in quotes, as its bytes in UTF-8."""
    value: bytes


@dataclass(slots=True, eq=False)
class Name:
    """A name without a dot, of a parameter or of a definition."""
    name: str


@dataclass(slots=True, eq=False)
class Path:
    """Names with dots between them: a field of a value, or a name of another module."""
    names: list[str]


@dataclass(slots=True, eq=False)
class Part:
    """A field, or a position, of an expression in parentheses."""
    of: Tree
    field: str


@dataclass(slots=True, eq=False)
class Apply:
    """A function and its arguments."""
    function: Tree
    arguments: list[Tree]


@dataclass(slots=True, eq=False)
class Operation:
    """An operator between two expressions."""
    operator: str
    left: Tree
    right: Tree


@dataclass(slots=True, eq=False)
class If:
    """One of two expressions, by a test."""
    test: Tree
    yes: Tree
    no: Tree


@dataclass(slots=True, eq=False)
class Lambda:
    """A function without a name."""
    names: list[str]
    body: Tree


@dataclass(slots=True, eq=False)
class Let:
    """A name for a value in the expression after it."""
    name: str
    value: Tree
    body: Tree


@dataclass(slots=True, eq=False)
class Tuple:
    """Several values as one."""
    items: list[Tree]


@dataclass(slots=True, eq=False)
class Build:
    """A record of its fields, or another record with some of them changed."""
    base: Tree | None
    fields: dict[str, Tree]


@dataclass(slots=True, eq=False)
class Not:
    """That a proposition does not hold."""
    of: Tree


@dataclass(slots=True, eq=False)
class Bound:
    """`(name : type) × body` or `(name : type) → body`: for some value, or for each."""
    operator: str
    name: str
    type: Tree
    body: Tree


@dataclass(slots=True, eq=False)
class Cases:
    """`elim`: an expression by the form of a value."""
    of: Tree
    rows: list[tuple[Pattern, Tree]]


Tree = Union[Number, Text, Name, Path, Part, Apply, Operation, If, Lambda, Let, Tuple, Build, Not,
             Bound, Cases]


@dataclass(slots=True, eq=False)
class Any:
    """A pattern that is a name: any value."""
    name: str


@dataclass(slots=True, eq=False)
class Literal:
    """A number, or whether a test holds."""
    value: int | bool


@dataclass(slots=True, eq=False)
class Empty:
    """The empty list."""


@dataclass(slots=True, eq=False)
class Link:
    """A list by its first element and the others."""
    head: Pattern
    tail: Pattern


@dataclass(slots=True, eq=False)
class Parts:
    """A tuple by its values."""
    items: list[Pattern]


@dataclass(slots=True, eq=False)
class Form:
    """A constructor and its arguments. `bare` says that it was one name alone, which may turn out
    to be that of a parameter."""
    name: str
    arguments: list[Pattern]
    bare: bool = False


Pattern = Union[Any, Literal, Empty, Link, Parts, Form]

TOKEN = re.compile(r'"(?:[^"\\]|\\.)*"|⏎|\[\]|[(){};,\[\]]|[^\s(){};,\[\]"]+')

# How tightly each operator binds, and to which side.
OPERATORS = {
    '→': (5, 'right'), '>>=': (10, 'left'), '⊎': (12, 'right'), '×': (15, 'right'),
    '||': (20, 'right'), '&&': (30, 'right'), '≡': (40, 'none'), '≢': (40, 'none'),
    '==': (40, 'none'), '<': (40, 'none'), '≤': (40, 'none'), '∷': (50, 'right'),
    '++': (50, 'right'), '+': (60, 'left'), '-': (60, 'left'), '*': (70, 'left'),
    '/': (70, 'left'), '%': (70, 'left'), '^': (80, 'right'), '↔': (10, 'none')}
STOPS = {')', '}', ';', ',', ']', 'then', 'else', 'in', '=', '⏎', '←', ':', '|', '↦'}


class Parser:
    """Reads the tokens of one declaration."""

    def __init__(self, tokens: list[str]):
        self.tokens, self.at = tokens, 0

    def peek(self, ahead: int = 0) -> str | None:
        """The token so many from here, None after the last one."""
        return self.tokens[self.at + ahead] if self.at + ahead < len(self.tokens) else None

    def next(self) -> str:
        """The token here, which is passed."""
        if self.at >= len(self.tokens):
            raise SyntaxError('ends too early: ' + ' '.join(self.tokens))
        self.at += 1
        return self.tokens[self.at - 1]

    def want(self, token: str) -> None:
        """Passes this token and no other."""
        if self.peek() != token:
            raise SyntaxError(f'{token!r} is missing before {self.peek()!r}: '
                              + ' '.join(self.tokens[:self.at + 1]))
        self.at += 1

    def end(self) -> None:
        """Nothing is left over."""
        if self.peek() is not None:
            raise SyntaxError('left over: ' + ' '.join(self.tokens[self.at:]))

    def skip_braces(self) -> None:
        """Passes implicit arguments."""
        while self.peek() == '{':
            depth = 0
            while True:
                token = self.next()
                depth += (token == '{') - (token == '}')
                if depth == 0:
                    break

    def binder(self) -> list[tuple[str, Tree]] | None:
        """`(x y : T)`, None if here is none."""
        end = self.at + 1
        while end < len(self.tokens) and re.fullmatch(r"[\w']+", self.tokens[end]):
            end += 1
        if self.peek() != '(' or end == self.at + 1 or end >= len(self.tokens) \
                or self.tokens[end] != ':':
            return None
        names = self.tokens[self.at + 1:end]
        self.at = end + 1
        of = self.expression()
        self.want(')')
        return [(name, of) for name in names]

    def expression(self, least: int = 0) -> Tree:
        """An expression whose operators bind at least so tightly."""
        token = self.peek()
        if token == 'if':
            self.next()
            test = self.expression()
            self.want('then')
            yes = self.expression()
            self.want('else')
            return If(test, yes, self.expression())
        if token == 'λ':
            return self.function()
        if token == 'let':
            self.next()
            name = self.next()
            while self.next() != '=':
                pass
            value = self.expression()
            self.want('in')
            return Let(name, value, self.expression())
        if token == 'do':
            return self.steps()
        start, bound = self.at, self.binder() if token == '(' else None
        if token == '{' and least <= 5:
            self.skip_braces()
            self.want('→')
            return self.expression(5)
        left: Tree
        if bound:
            while self.peek() == '(':
                more = self.binder()
                if not more:
                    break
                bound += more
            operator = self.next()
            if operator not in OPERATORS:
                raise SyntaxError('no operator after ' + ' '.join(self.tokens[:self.at]))
            left = self.expression(OPERATORS[operator][0])
            for name, of in reversed(bound):
                left = Bound(operator, name, of, left)
        else:
            self.at = start
            left = self.application()
        while self.peek() in OPERATORS:
            operator = self.tokens[self.at]
            binds, side = OPERATORS[operator]
            if binds < least:
                break
            self.next()
            left = Operation(operator, left, self.expression(binds + (side != 'right')))
        return left

    def function(self) -> Tree:
        """`λ x y. body`; a parameter may have its type."""
        self.next()
        names: list[str] = []
        while True:
            if self.peek() == '(':
                bound = self.binder()
                if not bound:
                    raise SyntaxError('a parameter is missing: ' + ' '.join(self.tokens))
                names += [name for name, _ in bound]
                if self.peek() == '.':
                    self.next()
                    break
            else:
                last = self.next()
                names.append(last.rstrip('.'))
                if last.endswith('.'):
                    break
        return Lambda(names, self.expression())

    def steps(self) -> Tree:
        """A `do` block: each line but the last is followed by `>>=` and a function."""
        self.next()
        lines: list[tuple[str, Tree]] = []
        while self.peek() == '⏎':
            self.next()
            if self.peek(1) == '←':
                name = self.next()
                self.next()
                lines.append((name, self.expression()))
            else:
                lines.append(('_', self.expression()))
        tree = lines.pop()[1]
        for name, of in reversed(lines):
            tree = Operation('>>=', of, Lambda([name], tree))
        return tree

    def application(self) -> Tree:
        """A function and its arguments."""
        if self.peek() == '¬':
            self.next()
            return Not(self.application())
        if self.peek() == 'elim':
            return self.cases()
        function, arguments = self.atom(), []
        self.skip_braces()
        while self.peek() is not None and self.peek() not in STOPS \
                and self.peek() not in OPERATORS:
            if self.peek() in ('λ', 'if', 'let', 'do', 'elim'):
                arguments.append(self.expression())
                break
            arguments.append(self.atom())
            self.skip_braces()
        return Apply(function, arguments) if arguments else function

    def cases(self) -> Tree:
        """`elim x [ | pattern ↦ expression .. ]`"""
        self.next()
        of = self.atom()
        self.want('[')
        rows = []
        while self.peek() != ']':
            if self.peek() == '|':
                self.next()
            pattern = self.pattern()
            self.want('↦')
            rows.append((pattern, self.expression()))
        self.next()
        return Cases(of, rows)

    def atom(self) -> Tree:
        """An expression that needs no parentheses."""
        token = self.next()
        tree: Tree
        if token == '(':
            items = [self.expression()]
            while self.peek() == ',':
                self.next()
                items.append(self.expression())
            self.want(')')
            tree = items[0] if len(items) == 1 else Tuple(items)
            while re.match(r'\.\w', self.peek() or ''):
                for part in self.next()[1:].split('.'):
                    tree = Part(tree, part)
            return tree
        if token == 'record':
            base = None if self.peek() == '{' else self.atom()
            self.want('{')
            fields = {}
            while self.peek() != '}':
                name = self.next()
                self.want('=')
                fields[name] = self.expression()
                if self.peek() == ';':
                    self.next()
            self.want('}')
            return Build(base, fields)
        if token[0] == '"':
            text = re.sub(r'\\(.)', lambda c: {'n': '\n', 't': '\t'}.get(c[1], c[1]), token[1:-1])
            return Text(text.encode())
        if token in STOPS:
            raise SyntaxError(f'{token!r} in ' + ' '.join(self.tokens))
        if re.fullmatch(r'0x[0-9a-fA-F]+|\d+', token):
            return Number(int(token, 0))
        if '◌' in token or '.' not in token:
            return Name(token)
        return Path(token.split('.'))

    def patterns(self) -> list[Pattern]:
        """The patterns before `=` or a parenthesis."""
        got = []
        while self.peek() not in ('=', None, ')', '∷', ',', '>>=', '↦'):
            if self.peek() == '{':
                self.skip_braces()
            else:
                got.append(self.pattern(True))
        return got

    def pattern(self, atom: bool = False) -> Pattern:
        """A pattern; one that is an argument of another has no arguments itself."""
        token = self.next()
        got: Pattern
        if token == '(':
            items = [self.pattern()]
            while self.peek() == ',':
                self.next()
                items.append(self.pattern())
            self.want(')')
            got = items[0] if len(items) == 1 else Parts(items)
        elif token == '[]':
            got = Empty()
        elif token in ('true', 'false'):
            got = Literal(token == 'true')
        elif token == 'zero':
            got = Literal(0)
        elif token.isdigit():
            got = Literal(int(token))
        elif token == 'suc' or token.split('.')[-1][0].isupper() or '.' in token:
            arguments = [] if atom else self.patterns()
            got = Form(token.split('.')[-1], arguments, not arguments and '.' not in token)
        elif not atom and self.peek() not in (')', ',', '∷', '=', '↦', '>>=', None):
            got = Form(token, self.patterns())
        else:
            got = Any(token)
        if not atom and self.peek() == '∷':
            self.next()
            got = Link(got, self.pattern())
        return got


def parse_expression(text: str) -> Tree:
    """The tree of an expression."""
    parser = Parser(TOKEN.findall(text))
    tree = parser.expression()
    parser.end()
    return tree


def without_comment(line: str) -> str:
    """The line up to `--`, if that is outside of a text."""
    inside = False
    for i, c in enumerate(line):
        if c == '"' and (i == 0 or line[i - 1] != '\\'):
            inside = not inside
        if not inside and line.startswith('--', i) and (i == 0 or line[i - 1] == ' '):
            return line[:i].rstrip()
    return line.rstrip()


def declarations(text: str) -> list[list[str]]:
    """The declarations of a file, each with its lines; a step of a `do` block begins with ⏎."""
    found: list[list[str]] = []
    steps_at = None
    for line in map(without_comment, text.split('\n')):
        if not line.strip():
            continue
        if line[0] not in ' )}]':
            found.append([line])
            steps_at = None
        else:
            depth = len(line) - len(line.lstrip())
            if steps_at is None and found[-1][-1].endswith(' do'):
                steps_at = depth
            found[-1].append(('⏎ ' if depth == steps_at else '') + line.strip())
    return found


@dataclass
class Use:
    """Where a name of another module is from."""
    crate: str
    module: str
    name: str


@dataclass
class Parametrised:
    """A record or a data type: its parameters, and the type of each field or constructor."""
    kind: str
    name: str
    parameters: list[str]
    parts: list[tuple[str, Tree]] = field(default_factory=list)
    is_proposition: bool = False


HEAD = r'(?:abbrev |unfoldable |pub |scoped )*'
USE = re.compile(r'(?:pub )?use Rattle\.(\w+)\.(?:specs|proofs)\.([\w.×]+?)(?: as (\w+)|\.\{(.*)\})$')


class Module:
    """What a file declares."""

    def __init__(self, crate: str, name: str, text: str):
        self.crate, self.name = crate, name
        self.uses: dict[str, Use] = {}
        self.aliases: dict[str, tuple[str, str]] = {}
        self.equations: dict[str, list[tuple[list[Pattern], Tree]]] = {}
        self.types: dict[str, Parametrised] = {}
        self.statements: dict[str, str] = {}
        self.unread: dict[str, str] = {}
        for lines in declarations(text):
            self.declare(lines)
        known = {part for of in self.types.values() for part, _ in of.parts if of.kind == 'data'}
        known |= {name for name, use in self.uses.items()
                  if name[0].isupper() or use.crate in ('json', 'serde_json')} | {'suc'}
        for equations in self.equations.values():
            equations[:] = [([settled(p, known) for p in patterns], tree)
                            for patterns, tree in equations]

    def declare(self, lines: list[str], more: tuple[str, ...] = ()) -> None:
        """One declaration; `more` are the parameters of a module around it."""
        whole = ' '.join(lines)
        use = USE.match(whole)
        if use:
            self.use(use)
            return
        around = re.match(r'module _ (.*?) where', whole)
        if around:
            names = [name for group in re.findall(r'\(([^:()]*) :', around[1])
                     for name in group.split()]
            for inner in declarations('\n'.join(
                    line for line in self.inside(lines))):
                self.declare(inner, tuple(names))
            return
        typed = re.match(HEAD + r'(record|data) (\w+)(.*?) : Type \d+ where', whole)
        if typed:
            self.parts(typed[1], typed[2], typed[3], lines)
            return
        signature = re.match(HEAD + r'(\S+) :(?= |$)', whole)
        if signature:
            self.statements[signature[1]] = whole[signature.end():].strip()
            return
        if re.match(r'use |pub |mod |open |unfolding |infix|mutual', whole):
            return
        self.equation(whole, more)

    @staticmethod
    def inside(lines: list[str]) -> list[str]:
        """The lines of a module in a module: those that begin with a signature or its name."""
        found, names = [], set()
        for line in lines[1:]:
            signature = re.match(HEAD + r'(\S+) :(?= |$)', line)
            if signature:
                names.add(signature[1])
            starts = signature or line.split(' ')[0] in names
            found.append(line if starts else '  ' + line)
        return found

    def use(self, use: re.Match[str]) -> None:
        """Names of another module, or a name for it."""
        crate, module, alias, names = use.groups()
        if alias:
            self.aliases[alias] = (crate, module)
            return
        for name in names.split(','):
            name, _, mine = name.strip().partition(' as ')
            self.uses[mine or name] = Use(crate, module, name)

    def equation(self, whole: str, more: tuple[str, ...]) -> None:
        """One equation of a definition."""
        parser = Parser(TOKEN.findall(whole))
        name = parser.peek() or ''
        try:
            if re.match(r'(\w+ \w+|\w+|\([^()]*\)) >>= ', whole):
                name = '◌>>=◌'
                patterns = [parser.pattern()]
                parser.next()
                patterns += parser.patterns()
            else:
                parser.next()
                patterns = parser.patterns()
            parser.want('=')
            tree = parser.expression()
            parser.end()
        except SyntaxError as fault:
            self.unread[name] = f'{self.crate}.{self.name}: {str(fault)[:200]}'
            return
        patterns = [Any(parameter) for parameter in more] + patterns
        self.equations.setdefault(name, []).append((patterns, tree))

    def parts(self, kind: str, name: str, parameters: str, lines: list[str]) -> None:
        """A record or a data type."""
        names = [each for group in re.findall(r'\(([^:()]*) :', parameters)
                 for each in group.split()]
        found = Parametrised(kind, name, names)
        found.is_proposition = any(not re.match(r'Type \d', of) for of in
                                   re.findall(r'\([^:()]* : ((?:[^()]|\([^()]*\))*)\)', parameters))
        fields: list[str] = []
        started = False
        for line in lines:
            if not started:
                started = line.endswith('where')
            elif re.match(r"(pub )?[\w']+ : ", line):
                fields.append(re.sub(r'^pub ', '', line))
            elif not re.match(r'(pub )?open ', line):
                fields[-1] += ' ' + line
        try:
            for each in fields:
                part, of = each.split(' : ', 1)
                found.parts.append((part, parse_expression(of)))
        except SyntaxError as fault:
            self.unread[name] = f'{self.crate}.{self.name}: {name}: {str(fault)[:200]}'
            return
        self.types[name] = found


def settled(pattern: Pattern, known: set[str]) -> Pattern:
    """The pattern, in which a capital name that is no constructor is a parameter, and a small one
    that is one is that."""
    match pattern:
        case Any(name) if name in known:
            return Form(name, [])
        case Form(name, [], True) if name not in known:
            return Any(name)
        case Form(name, arguments):
            return Form(name, [settled(each, known) for each in arguments])
        case Parts(items):
            return Parts([settled(each, known) for each in items])
        case Link(head, tail):
            return Link(settled(head, known), settled(tail, known))
    return pattern
