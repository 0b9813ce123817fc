"""Which names a file uses, and where they come from."""
import re

from tokens import IDENT, PUNCT, STRING

IN_FORMAT = re.compile(r'\{([A-Za-z_][A-Za-z0-9_]*)')
ITEMS = ('fn', 'struct', 'enum', 'trait', 'const', 'static', 'type', 'mod')


class Leaf:
    """One name that a `use` line brings in."""

    def __init__(self, path, name, start, end):
        self.path, self.name, self.start, self.end = path, name, start, end
        self.leaves = None


class Tree:
    """A part of a `use` line with braces."""

    def __init__(self, leaves, start, end):
        self.leaves, self.start, self.end = leaves, start, end


class Use:
    """A `use` line."""

    def __init__(self, source, at):
        self.at = at
        self.start = at
        if source.text(at - 1) == 'pub':
            self.start = at - 1
        elif source.text(at - 1) == ')' and source.text(source.mate[at - 1] - 1) == 'pub':
            self.start = source.mate[at - 1] - 1
        self.public = self.start < at
        end = at
        while source.text(end) != ';':
            end = source.mate[end] + 1 if source.text(end) == '{' else end + 1
        self.end = end + 1
        self.tree = read_tree(source, at + 1, end, ())

    def leaves(self):
        return leaves_of(self.tree)


def read_tree(source, start, end, path):
    """Reads a part of a `use` line, which follows `path`."""
    at = start
    while at < end:
        if source.text(at) == '{':
            parts = source.parts(at + 1, source.mate[at])
            return Tree([read_tree(source, begin, stop, path) for begin, stop in parts], start, end)
        if source.is_ident(at) or source.text(at) == '*':
            if source.text(at) == 'as':
                return Leaf(path, source.text(at + 1), start, end)
            if source.text(at) != 'self' or not path:
                path = path + (source.text(at),)
        at += 1
    return Leaf(path, path[-1], start, end)


def leaves_of(tree):
    if tree.leaves is None:
        return [tree]
    return [leaf for part in tree.leaves for leaf in leaves_of(part)]


def uses(source):
    """The `use` lines of a file."""
    return [Use(source, at) for at, token in enumerate(source.code)
            if token.text == 'use' and token.kind == IDENT]


def drop_leaves(source, wanted, rule):
    """Takes names out of the `use` lines. `wanted` says which, by line and leaf. Returns them."""
    dropped = []

    def drop_in(use, tree):
        """Returns whether all of a tree goes."""
        if tree.leaves is None:
            goes = wanted(use, tree)
            if goes:
                dropped.append((use, tree))
            return goes
        going = [part for part in tree.leaves if drop_in(use, part)]
        if len(going) == len(tree.leaves):
            return True
        for part in going:
            source.drop_part(part.start, part.end, rule)
        return False

    for use in uses(source):
        if drop_in(use, use.tree):
            source.drop_item(use.start, use.end, rule)
    if dropped:
        source.settle()
    return dropped


def items(source):
    """The items that a file declares at its top, by name, with their kinds."""
    found, at = {}, 0
    while at < len(source.code):
        text = source.text(at)
        if text in ITEMS and source.is_ident(at + 1):
            if not (text == 'const' and source.text(at + 1) == 'fn'):
                found[source.text(at + 1)] = text
        if text in ('{', '(', '['):
            at = source.mate[at]
        at += 1
    return found


class Names:
    """Where the names of a file come from: a pair of a crate, or `std`, and a name or path."""

    def __init__(self, source):
        own = items(source)
        self.mods = {name for name, kind in own.items() if kind == 'mod'}
        self.crate = source.crate
        self.origin = {name: (source.crate, name) for name in own}
        for use in uses(source):
            for leaf in use.leaves():
                self.origin[leaf.name] = self.of_path(leaf.path)

    def of_path(self, path):
        """The crate of a path and its last name, or `std` and all that follows."""
        if path[0] == 'std':
            return 'std', '::'.join(path[1:])
        if path[0] in ('crate', 'super', 'self') or path[0] in self.mods:
            return self.crate, path[-1]
        if len(path) == 1:
            return self.origin.get(path[0], (self.crate, path[0]))
        return path[0], path[-1]

    def at(self, source, at):
        """The origin of the path that ends with the name at a position."""
        path, first = [source.text(at)], at
        while source.text(first - 1) == '::' and source.is_ident(first - 2):
            first -= 2
            path.insert(0, source.text(first))
        if len(path) == 1:
            return self.origin.get(path[0])
        head = self.origin.get(path[0])
        if head and head[0] == 'std':
            return 'std', '::'.join([head[1]] + path[1:])
        return self.of_path(tuple(path))

    def of(self, source, at):
        """The same, where a name that nothing declares or brings in is one of the crate."""
        return self.at(source, at) or (self.crate, source.text(at))


def mentions(source):
    """How often each name is in the code outside `use` lines, and in formats."""
    counts, skip = {}, [False] * len(source.code)
    for use in uses(source):
        for at in range(use.start, use.end):
            skip[at] = True
    for at, token in enumerate(source.code):
        found = [token.text] if token.kind == IDENT and not skip[at] else []
        if token.kind == STRING:
            found = IN_FORMAT.findall(token.text)
        for name in found:
            counts[name] = counts.get(name, 0) + 1
    return counts


def starts_path(source, at):
    """Whether a name begins a path: nothing that names its owner is before it."""
    before = source.code[at - 1] if at else None
    return not (before and before.kind == PUNCT and before.text in ('.', '::'))
