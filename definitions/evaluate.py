"""Definitions as Python functions: each is written as Python's source when it is first needed.

A parameter `p` is `x_p` there. An argument that is not needed yet is a `Thunk`, whose function has
the parameters in its closure, so that a search can read an expression backwards (`solve.py`)."""
from __future__ import annotations

import collections
import glob
import os
import re
from dataclasses import dataclass, field as data_field
from typing import Any, Callable

from . import syntax, values
from .syntax import (Apply, Bound, Build, Cases, If, Lambda, Let, Module, Name, Not, Number,
                     Operation, Part, Path, Pattern, Text, Tree, Tuple)
from .values import (FALSE, NIL, TRUE, Con, Cons, Function, Prop, Thunk, Undefined, apply,
                     byte_list, field, force, need, settle)

# Crates that are not in this repository: their words are in the table of primitives.
OUTSIDE = {'std', 'sha2', 'hex', 'rand_xoshiro', 'rand_core', 'core', 'json', 'serde_json',
           'indexmap', 'arrayvec', 'slab', 'strsim'}

# Each tree that an argument was made of, with the scope of its module.
SOURCES: list[tuple[Scope, Tree]] = []

PROPOSITIONS = {'⊥': FALSE, '⊤': TRUE, 'Unit': TRUE}


@dataclass
class Entity:
    """What a name stands for: a function of `arity` arguments, or a value."""
    name: str
    arity: int
    run: Callable | None = None
    value: Any = None
    users: list[tuple[dict, str]] = data_field(default_factory=list)

    def as_value(self) -> Any:
        """The function, or the value."""
        if self.run is not None and self.arity:
            return Function(self.arity, lambda *args: self.run(*args), (), self.name)
        return self.value


@dataclass
class Work:
    """What a thunk of a tree under given names does."""
    function: Callable
    arguments: list[Any]
    names: dict[str, Any]

    def __call__(self) -> Any:
        return self.function(*self.arguments)


def mangled(name: str) -> str:
    """The name of a parameter in Python."""
    return 'x_' + name.replace("'", 'ʹ')


def environment(thunk: Thunk) -> dict[str, Any]:
    """The parameters that a thunk's expression may name."""
    work = thunk.work
    if type(work) is Work:
        return work.names
    cells = zip(work.__code__.co_freevars, work.__closure__ or ())
    return {name[2:].replace('ʹ', "'"): cell.cell_contents for name, cell in cells
            if name.startswith('x_')}


def bound_names(pattern: Pattern) -> list[str]:
    """The parameters that a pattern names."""
    match pattern:
        case syntax.Any(name):
            return [name]
        case syntax.Link(head, tail):
            return bound_names(head) + bound_names(tail)
        case syntax.Parts(items) | syntax.Form(_, items):
            return [name for each in items for name in bound_names(each)]
    return []


class Definitions:
    """The definitions of a tree of crates. `changes` are texts of modules to be replaced by others,
    as (crate/module, old, new), to see whether such a wrong definition is found."""

    def __init__(self, root: str, primitives: dict[str, Any], replaced: Callable | None = None,
                 memory: frozenset[str] = frozenset(), changes: list[tuple[str, str, str]] = [],
                 outside: str | None = None):
        self.root, self.primitives, self.memory = root, primitives, memory
        self.changes, self.outside = changes, outside
        self.modules: dict[tuple[str, str], Module] = {}
        self.scopes: dict[tuple[str, str], Scope] = {}
        self.entities: dict[tuple[str, str, str], Entity] = {}
        self.constants: dict[str, dict[str, str]] = {}
        self.enumerations: dict[str, dict[str, list[str]]] = {}
        self.calls: collections.Counter[tuple[str, str, str]] = collections.Counter()
        self.used: set[tuple[str, str, str]] = set()
        self.replaced: dict[tuple[str, str, str], Any] = {}
        self.indexes: Any = None
        # what else a search knows of relations: `guides.py`
        self.guides: dict[tuple[str, str, str], Callable] = {}
        self.skipped: dict[tuple[str, str, str, str], str] = {}
        self.passed: collections.Counter[tuple[str, str, str, str]] = collections.Counter()
        if replaced:
            self.replaced = replaced(self)

    def path(self, crate: str, module: str) -> str | None:
        """The file of a module, None if there is none."""
        for room in ('specs', 'proofs'):
            path = f'{self.root}/{crate}/{room}/{module.replace(".", "/")}.antt'
            if os.path.exists(path):
                return path
        return None

    def load(self, crate: str, module: str) -> Module:
        """A module, read once."""
        key = crate, module
        if key not in self.modules:
            path = self.path(crate, module)
            if path is None:
                raise Undefined(f'there is no module {crate}.{module}')
            with open(path, encoding='utf-8') as file:
                text = file.read()
            for where, old, new in self.changes:
                if where == f'{crate}/{module}':
                    if old not in text:
                        raise Undefined(f'{where} has no `{old}`')
                    text = text.replace(old, new)
            self.modules[key] = Module(crate, module, text)
        return self.modules[key]

    def scope(self, crate: str, module: str) -> Scope:
        """The Python of a module."""
        key = crate, module
        if key not in self.scopes:
            self.scopes[key] = Scope(self, self.load(crate, module))
        return self.scopes[key]

    def value(self, name: str) -> Any:
        """What `crate.Module.name` stands for."""
        crate, _, rest = name.partition('.')
        module, _, last = rest.rpartition('.')
        return self.scope(crate, module).resolve(last).as_value()

    def call(self, name: str, *args: Any) -> Any:
        """A definition of these arguments, as far as it is needed to see its form."""
        return force(apply(self.value(name), *args))

    def sources(self, crate: str) -> list[str]:
        """The texts of the sources of a crate."""
        found = []
        for path in glob.glob(f'{self.root}/{crate}/src/**/*.rt', recursive=True):
            with open(path, encoding='utf-8') as file:
                found.append(file.read())
        return found

    def constants_of(self, crate: str) -> dict[str, str]:
        """The constants that the sources of a crate declare."""
        if crate not in self.constants:
            self.constants[crate] = {name: value for text in self.sources(crate) for name, value in
                                     re.findall(r'const (\w+): \w+ = ([^;]+);', text)}
        return self.constants[crate]

    def constant(self, crate: str, name: str) -> int | None:
        """The value of a constant of a crate, or of the one that it takes it from."""
        text = self.constants_of(crate).get(name)
        if text is None:
            for other in sorted(os.listdir(self.root)):
                if name in self.constants_of(other):
                    return self.constant(other, name)
            return None
        text = re.sub(r' as \w+|_(?=\d)|\b\w+::(?=[A-Z])', '', text)
        text = re.sub(r'\b[A-Z][A-Z_]+\b', lambda c: str(self.constant(crate, c[0])), text)
        if not re.fullmatch(r'[\s\d+*/()<x0-9a-fA-F-]+', text):
            return None
        return int(eval(text, {'__builtins__': {}}))  # noqa: S307 - numbers and operators alone

    def enumeration(self, crate: str, name: str) -> list[str] | None:
        """The variants of an enum of a crate's sources, if none of them has values."""
        if crate not in self.enumerations:
            found: dict[str, list[str]] = {}
            for text in self.sources(crate):
                text = re.sub(r'//.*|#\[[^\]]*\]', '', text)
                for enum, body in re.findall(r'enum (\w+) \{([^{}]*)\}', text):
                    variants = [v.split('=')[0].strip() for v in body.split(',') if v.strip()]
                    if all(re.fullmatch(r'\w+', v) for v in variants):
                        found[enum] = variants
            self.enumerations[crate] = found
        return self.enumerations[crate].get(name)


class Scope:
    """A module as Python: what its names stand for, and how its trees are written as source."""

    def __init__(self, definitions: Definitions, module: Module):
        self.definitions, self.module = definitions, module
        self.space: dict[str, Any] = {
            'T': Thunk, 'Cons': Cons, 'NIL': NIL, 'Con': Con, 'Function': Function, 'Prop': Prop,
            'force': force, 'need': need, 'field': field, 'apply': apply, 'monus': monus,
            'over': over, 'rest': rest, 'changed': changed, 'parts': parts, 'no_case': no_case,
            'append': definitions.primitives['◌++◌'][1]}
        self.compiled: dict[int, tuple[Callable, list[str], Tree, int]] = {}

    # names

    def resolve(self, name: str) -> Entity:
        """What a name of this module stands for."""
        definitions, module = self.definitions, self.module
        key = module.crate, module.name, name
        if key not in definitions.entities:
            definitions.entities[key] = self.look_up(name)
        return definitions.entities[key]

    def look_up(self, name: str) -> Entity:
        """What a name stands for: an exception of the evaluator, a definition, a type, a
        constructor, or a name of another module."""
        module, definitions = self.module, self.definitions
        key = module.crate, module.name, name
        if name in PROPOSITIONS:
            return Entity(name, 0, value=PROPOSITIONS[name])
        if key in definitions.replaced:
            return given(name, definitions.replaced[key])
        if name in module.unread:
            raise Undefined(f'{name} cannot be read: {module.unread[name]}')
        if name in module.equations:
            return self.definition(name)
        if name in module.types:
            of = module.types[name]
            definitions.used.add(key)
            if not of.parameters:
                return Entity(name, 0, value=Prop('type', self, of, ()))
            return Entity(name, len(of.parameters), lambda *args: Prop('type', self, of, args))
        if any(name == each for of in module.types.values() for each, _ in of.parts
               if of.kind == 'data'):
            return Entity(name, 0, value=Con(name, (), True))
        if name in module.uses:
            use = module.uses[name]
            return self.member(use.crate, use.module, use.name)
        return self.primitive(name)

    def member(self, crate: str, module: str, name: str) -> Entity:
        """A name of another module."""
        definitions = self.definitions
        if 'declared' in module.split('.'):
            number = definitions.constant(crate, name) if name.isupper() else None
            return Entity(name, 0, value=Con(name, (), True) if number is None else number)
        if crate in OUTSIDE:
            key = crate, module, name
            if key in definitions.replaced:
                return given(name, definitions.replaced[key])
            return self.primitive(name, crate)
        over = module.rpartition('.')[0]    # the constructors of a type are in a module of its name
        if definitions.path(crate, module) is None and over and definitions.path(crate, over):
            return Entity(name, 0, value=Con(name, (), True))
        return definitions.scope(crate, module).resolve(name)

    def primitive(self, name: str, crate: str = '') -> Entity:
        """A word of the table, or a type of std, which has no value to be computed."""
        primitives = self.definitions.primitives
        for key in (f'{crate}.{name}', name):
            if key in primitives:
                return given(name, primitives[key])
        if name == 'ℕ' or name[0].isupper():
            return Entity(name, 0, value=Con(name, (), True))
        raise Undefined(f'no primitive `{name}`, which {self.module.crate}.{self.module.name} uses')

    def definition(self, name: str) -> Entity:
        """A definition by equations, compiled when it is first called."""
        definitions, module = self.definitions, self.module
        key = module.crate, module.name, name
        arity = len(module.equations[name][0][0])
        entity = Entity(name, arity)

        def first(*args: Any) -> Any:
            entity.run = self.compile(name)
            if f'{module.crate}.{name}' in definitions.memory:
                entity.run = remembered(entity.run)
            for space, symbol in entity.users:
                space[symbol] = entity.run
            return entity.run(*args)

        definitions.used.add(key)
        if arity:
            entity.run = first
        else:
            entity.value = Thunk(lambda: settle(self.compile(name)()))
        return entity

    # source

    def symbol(self, value: Any) -> str:
        """A name in the Python of this module for a value."""
        name = f'k{len(self.space)}'
        self.space[name] = value
        return name

    def function_symbol(self, entity: Entity) -> str:
        """A name for a function, which is bound anew once that is compiled."""
        name = self.symbol(entity.run)
        entity.users.append((self.space, name))
        return name

    def execute(self, source: str, name: str) -> Callable:
        """The function of this name that the source defines."""
        exec(compile(source, f'<{self.module.crate}.{self.module.name}>', 'exec'), self.space)
        return self.space[name]

    def compile(self, name: str) -> Callable:
        """The Python function of a definition."""
        return self.execute(*self.source(name, self.module.equations[name]))

    def source(self, name: str, equations: list[tuple[list[Pattern], Tree]],
               more: list[str] = []) -> tuple[str, str]:
        """The source of a function by its equations, and its name. It has the parameters `more`,
        and then those that the patterns are of."""
        function = f'f{len(self.space)}_{re.sub(chr(92) + "W", "_", name)}'
        self.space[function] = None
        arity = len(equations[0][0])
        columns = [self.symbol([patterns[i] for patterns, _ in equations])
                   for i in range(arity)]
        parameters = [mangled(each) for each in more] + [f'a{i}' for i in range(arity)]
        lines = [f'def {function}({", ".join(parameters)}):']
        for patterns, tree in equations:
            depth = 1
            scope = set(more)
            for i, pattern in enumerate(patterns):
                depth = self.test(pattern, f'a{i}', columns[i], lines, depth)
                scope |= set(bound_names(pattern))
            lines.append('    ' * depth + f'return {self.code(tree, frozenset(scope))}')
            if depth == 1:
                break
        else:
            lines.append(f'    no_case({self.module.crate + "." + self.module.name!r}, {name!r})')
        return '\n'.join(lines), function

    def test(self, pattern: Pattern, at: str, column: str | None, lines: list[str],
             depth: int) -> int:
        """Appends the test of a pattern and what it names; the depth of the lines after it."""
        def line(text: str) -> None:
            lines.append('    ' * depth + text)

        if isinstance(pattern, syntax.Any):
            if pattern.name != '_':
                line(f'{mangled(pattern.name)} = {at}')
            return depth
        value = f'b{len(lines)}'
        line(f'{value} = need({at}, {column})' if column else f'{value} = force({at})')
        match pattern:
            case syntax.Literal(number):
                same = f'is {number}' if isinstance(number, bool) else f'== {number}'
                line(f'if {value} {same}:')
                return depth + 1
            case syntax.Empty():
                line(f'if {value} is NIL:')
                return depth + 1
            case syntax.Link(head, tail):
                line(f'if {value} is not NIL:')
                depth = self.test(head, f'{value}.head', None, lines, depth + 1)
                return self.test(tail, f'{value}.tail', None, lines, depth)
            case syntax.Parts(items):
                line(f'{value} = parts({value}, {len(items)})')
                for i, each in enumerate(items):
                    depth = self.test(each, f'{value}[{i}]', None, lines, depth)
                return depth
            case syntax.Form('suc', [before]):
                line(f'if {value} > 0:')
                return self.test(before, f'({value} - 1)', None, lines, depth + 1)
            case syntax.Form(name, arguments):
                line(f'if {value}.name == {name!r}:')
                depth += 1
                for i, each in enumerate(arguments):
                    depth = self.test(each, f'{value}.args[{i}]', None, lines, depth)
                return depth
        raise TypeError(pattern)

    def thunk(self, tree: Tree, scope: frozenset[str]) -> str:
        """The source of an argument: a value, or a thunk if it has to be computed."""
        match tree:
            case Number() | Text() | Lambda() | Tuple() | Bound() | Not():
                return self.code(tree, scope)
            case Build(None, _):
                return self.code(tree, scope)
            case Operation('∷' | '×' | '⊎' | '≡' | '≢' | '→' | '<' | '≤', _, _):
                return self.code(tree, scope)
            case Name(name):
                if name in scope:
                    return mangled(name)
                return self.code(tree, scope)
        at = self.noted(tree)
        return f'T(lambda: {self.code(tree, scope)}, {at})'

    def noted(self, tree: Tree) -> int:
        """The index of a tree among the sources."""
        SOURCES.append((self, tree))
        return len(SOURCES) - 1

    def strict(self, tree: Tree, scope: frozenset[str]) -> str:
        """The source of a value that is needed."""
        match tree:
            case Number(value):
                return str(value)
            case Operation('+' | '-' | '*' | '/' | '%' | '^' | '==', _, _):
                return self.code(tree, scope)
        return f'force({self.code(tree, scope)})'

    def code(self, tree: Tree, scope: frozenset[str]) -> str:
        """The source of an expression, whose value may be a thunk."""
        match tree:
            case Number(value):
                return str(value)
            case Text(value):
                return self.symbol(byte_list(value))
            case Name(name):
                return mangled(name) if name in scope else self.named(name)
            case Path(names):
                return self.path(names, scope)
            case Part(of, name):
                return f'field({self.code(of, scope)}, {name!r})'
            case If(condition, yes, no):
                return (f'({self.code(yes, scope)} if {self.strict(condition, scope)} '
                        f'else {self.code(no, scope)})')
            case Let(name, value, body):
                return (f'(lambda {mangled(name)}: {self.code(body, scope | {name})})'
                        f'({self.thunk(value, scope)})')
            case Lambda(names, body):
                inner = self.code(body, scope | set(names))
                renamed = [mangled(n) if n not in names[i + 1:] else f'unused{i}'
                           for i, n in enumerate(names)]
                return f'Function({len(names)}, lambda {", ".join(renamed)}: {inner})'
            case Tuple(items):
                return '(' + ''.join(self.thunk(each, scope) + ', ' for each in items) + ')'
            case Build(base, fields):
                inside = ', '.join(f'{n!r}: {self.thunk(e, scope)}' for n, e in fields.items())
                if base is None:
                    return '{' + inside + '}'
                return f'changed({self.code(base, scope)}, {{{inside}}})'
            case Not(of):
                return f"Prop('not', {self.thunk(of, scope)})"
            case Bound(operator, name, of, body):
                kind = 'exists' if operator == '×' else 'all'
                inner = self.code(body, scope | {name})
                return (f'Prop({kind!r}, {self.symbol((self, of))}, '
                        f'lambda {mangled(name)}: {inner})')
            case Cases(of, rows):
                names = sorted(scope)
                source, function = self.source('elim', [([p], t) for p, t in rows], names)
                self.execute(source, function)
                return f'{function}({", ".join([*map(mangled, names), self.thunk(of, scope)])})'
            case Operation(operator, left, right):
                return self.operation(operator, left, right, scope)
            case Apply(function, arguments):
                return self.application(function, arguments, scope)
        raise TypeError(tree)

    def named(self, name: str) -> str:
        """The source of what a name of this module stands for."""
        return self.entity(self.resolve_or_fail(name))

    def entity(self, entity: Entity) -> str:
        """The source of an entity as a value."""
        if entity.run is not None and entity.arity:
            return f'Function({entity.arity}, {self.function_symbol(entity)}, (), {entity.name!r})'
        return self.symbol(entity.value)

    def resolve_or_fail(self, name: str) -> Entity:
        """What a name stands for; one that cannot be evaluated fails only if it is needed."""
        try:
            return self.resolve(name)
        except Undefined as fault:
            return failing(name, str(fault))

    def path_entity(self, names: list[str], scope: frozenset[str]) -> Entity | None:
        """What a name of another module, or a constructor by its type, stands for."""
        if names[0] in scope or len(names) != 2:
            return None
        first, last = names
        if first in self.module.aliases:
            crate, module = self.module.aliases[first]
            try:
                return self.member(crate, module, last)
            except Undefined as fault:
                return failing(last, str(fault))
        if last[0].isupper() or first[0].isupper():
            return Entity(last, 0, value=Con(last, (), True))
        return None

    def path(self, names: list[str], scope: frozenset[str]) -> str:
        """The source of names with dots between them."""
        entity = self.path_entity(names, scope)
        if entity is not None:
            return self.entity(entity)
        source = mangled(names[0]) if names[0] in scope else self.named(names[0])
        for name in names[1:]:
            source = f'field({source}, {name!r})'
        return source

    def operation(self, operator: str, left: Tree, right: Tree, scope: frozenset[str]) -> str:
        """The source of an operator between two expressions."""
        if operator == '&&':
            return f'({self.strict(left, scope)} and {self.code(right, scope)})'
        if operator == '||':
            return f'({self.strict(left, scope)} or {self.code(right, scope)})'
        if operator == '∷':
            return f'Cons({self.thunk(left, scope)}, {self.thunk(right, scope)})'
        if operator == '++':
            return f'append({self.thunk(left, scope)}, {self.thunk(right, scope)})'
        if operator == '>>=':
            return self.application(Name('◌>>=◌'), [left, right], scope)
        kinds = {'×': 'and', '⊎': 'or', '≡': 'equal', '→': 'implies'}
        if operator in kinds:
            return f'Prop({kinds[operator]!r}, {self.thunk(left, scope)}, {self.thunk(right, scope)})'
        if operator == '≢':
            inner = f"Prop('equal', {self.thunk(left, scope)}, {self.thunk(right, scope)})"
            return f"Prop('not', {inner})"
        a, b = self.strict(left, scope), self.strict(right, scope)
        if operator in '<≤':
            python = '<' if operator == '<' else '<='
            at = self.noted(Operation(operator, left, right))
            return f"Prop('test', T(lambda: {a} {python} {b}, {at}))"
        if operator in ('+', '*', '=='):
            return f'({a} {operator} {b})'
        if operator == '^':
            return f'({a} ** {b})'
        if operator in '-/%':
            return f'{ {"-": "monus", "/": "over", "%": "rest"}[operator]}({a}, {b})'
        return "Prop('unread')"

    def application(self, function: Tree, arguments: list[Tree], scope: frozenset[str]) -> str:
        """The source of a function and its arguments."""
        if isinstance(function, Name) and function.name == 'Unit':
            return self.named('⊤')
        entity = None
        if isinstance(function, Name) and function.name not in scope:
            entity = self.resolve_or_fail(function.name)
        elif isinstance(function, Path):
            entity = self.path_entity(function.names, scope)
        given_ = [self.thunk(each, scope) for each in arguments]
        if entity is not None and entity.run is not None and entity.arity:
            symbol, n = self.function_symbol(entity), entity.arity
            if len(given_) < n:
                return f'Function({n}, {symbol}, ({", ".join(given_)},), {entity.name!r})'
            call = f'{symbol}({", ".join(given_[:n])})'
            return f'apply({call}, {", ".join(given_[n:])})' if len(given_) > n else call
        if entity is not None and type(entity.value) is Con:
            return f'Con({entity.name!r}, ({", ".join(given_)},))'
        return f'apply({self.code(function, scope)}, {", ".join(given_)})'

    # trees under given names

    def thunk_of(self, tree: Tree, names: dict[str, Any]) -> Any:
        """The value of a tree, in which names stand for these values."""
        if isinstance(tree, Name) and tree.name in names:
            return names[tree.name]
        if id(tree) not in self.compiled:
            known = sorted(names)
            symbol = f'g{len(self.space)}'
            source = f'{symbol} = lambda {", ".join(map(mangled, known))}: ' \
                f'{self.code(tree, frozenset(known))}'
            self.compiled[id(tree)] = self.execute(source, symbol), known, tree, self.noted(tree)
        function, known, _, at = self.compiled[id(tree)]
        return Thunk(Work(function, [names[n] for n in known], names), at)


def given(name: str, value: Any) -> Entity:
    """The entity of a primitive: (arity, function), or a value."""
    if type(value) is tuple and len(value) == 2 and callable(value[1]):
        return Entity(name, value[0], value[1])
    return Entity(name, 0, value=value)


def failing(name: str, why: str) -> Entity:
    """The entity of a name that cannot be evaluated."""
    def fail() -> Any:
        raise Undefined(why)
    return Entity(name, 0, value=Thunk(fail))


def remembered(run: Callable) -> Callable:
    """The function with a memory of what it gave, by the contents of its arguments. What it gives
    has to be evaluated to its ends."""
    known: dict[tuple, tuple[Any, tuple]] = {}

    def memory(*args: Any) -> Any:
        args = tuple(map(settle, args))
        key = tuple(map(values.frozen, args))
        if key not in known:
            known[key] = settle(run(*args)), args
        return known[key][0]
    return memory


def monus(a: int, b: int) -> int:
    """The difference, 0 if that is less."""
    return a - b if a > b else 0


def over(a: int, b: int) -> int:
    """The quotient, 0 by 0."""
    return a // b if b else 0


def rest(a: int, b: int) -> int:
    """The remainder, the number itself by 0."""
    return a % b if b else a


def changed(base: Any, fields: dict[str, Any]) -> dict[str, Any]:
    """A record with some fields changed."""
    return {**force(base), **fields}


def parts(v: Any, count: int) -> tuple:
    """The elements of a pair."""
    return v if type(v) is tuple else tuple(field(v, str(i)) for i in range(count))


def no_case(module: str, name: str) -> None:
    """No equation of the definition fits."""
    raise Undefined(f'no case of {module}.{name}')
