"""What is written in another form, since Rust's std has other signatures or another edge.

Each rule is a difference between the two languages, and knows nothing of a crate here.
"""
from names import items, mentions, starts_path, uses
from older import let_else, unsafe_words, younger
from tokens import IDENT, STRING

# The modules of std that Rust has as Rattle has them. The others are those of plain/std.
SAME = {'array', 'cell', 'cmp', 'fmt', 'marker', 'mem', 'net', 'num', 'ops', 'ptr', 'str'}
STD = 'plain_std'
PROVED = 'proved with rattle-kit-'

# Methods that take the allocator in Rattle, and nothing in Rust.
WITH_ALLOCATOR = ('collect', 'to_string', 'to_vec')
MACROS = ('eprint', 'eprintln', 'format', 'print', 'println', 'vec')
PROOFS = {'prove': 'debug_assert', 'prove_eq': 'debug_assert_eq', 'prove_ne': 'debug_assert_ne'}
PRELUDE = {'Box': 'boxed::Box', 'String': 'string::String', 'Vec': 'vec::Vec',
           'Alloc': 'alloc::Alloc', 'AllocGlobal': 'alloc::AllocGlobal', 'Abort': 'rt::Abort',
           'Eprint': 'rt::Eprint', 'HostRuntime': 'rt::HostRuntime', 'Input': 'rt::Input',
           'Print': 'rt::Print'}
OF_EXTENSIONS = {'CollectWith': 'collect_with', 'ToStringWith': 'to_string_with',
                 'ToVecWith': 'to_vec_with', 'TryClone': 'try_clone', 'FromAscii': 'from_ascii',
                 'HexGroups': 'hex_groups'}


def home_of(path):
    """The crate that has a path of std."""
    return 'std' if path[0] in SAME else STD


def paths_of_std(source):
    """`std::..` names Rust's std, or what plain/std has in the place of a module of it."""
    in_use = set()
    for use in uses(source):
        in_use.update(range(use.start, use.end))
        leaves = [leaf for leaf in use.leaves() if leaf.path[0] == 'std' and len(leaf.path) > 1]
        homes = {home_of(leaf.path[1:]) for leaf in leaves}
        if not homes:
            continue
        if len(homes) == 1:
            at = next(k for k in range(use.start, use.end) if source.text(k) == 'std')
            if homes == {STD}:
                source.replace(at, STD, 'path of std')
            continue
        lead = ''.join(source.text(k) + ' ' for k in range(use.start, use.at + 1))
        lines = ['%s%s::%s%s;' % (lead, home_of(leaf.path[1:]), '::'.join(leaf.path[1:]),
                                  '' if leaf.name == leaf.path[-1] else ' as ' + leaf.name)
                 for leaf in leaves]
        source.put_before(use.start, '\n'.join(lines), 'path of std')
        source.drop(use.start, use.end, 'path of std')
        source.brought.update(leaf.name for leaf in leaves)
    for at, token in enumerate(source.code):
        if token.text == 'std' and at not in in_use and source.text(at + 1) == '::':
            if starts_path(source, at) and home_of((source.text(at + 2),)) == STD:
                source.replace(at, STD, 'path of std')
    source.settle()


def methods(source):
    """A method that takes the allocator has another name, as has a `clone` that may fail."""
    for at in range(len(source.code)):
        if source.text(at + 1) != '(' or not source.is_ident(at):
            continue
        name, before = source.text(at), source.text(at - 1)
        if name in WITH_ALLOCATOR and before == '.' and source.mate[at + 1] > at + 2:
            source.replace(at, name + '_with', 'method that takes the allocator')
        elif name == 'clone' and before == '.' and source.text(at + 3) == '?':
            source.replace(at, 'try_clone', 'clone that may fail')
        elif name == 'parse_ascii' and before == '::':
            source.replace(at, 'from_ascii', 'unstable in Rust')
    for at in range(len(source.code)):
        if source.text(at) in PROOFS and source.text(at + 1) == '!':
            source.replace(at, PROOFS[source.text(at)], 'prove!')


def plain_enums(source):
    """An enum whose variants have no fields has `==` in Rattle without a derive."""
    for at in range(len(source.code)):
        if source.text(at) != 'enum' or source.text(at + 2) != '{':
            continue
        start, end = at + 3, source.mate[at + 2]
        if any(source.text(k) in ('(', '{') and source.text(k - 1) != 'error'
               for k in range(start, end)) or is_compared(source, source.text(at + 1)):
            continue
        item = at - 1 if source.text(at - 1) == 'pub' else at
        if source.text(at - 1) == ')':
            item = source.mate[at - 1] - 1
        derived = derive_of(source, item)
        if derived is None:
            source.put_before(item, '#[derive(PartialEq, Eq)]\n', 'derive of ==')
        elif not any(source.text(k) == 'PartialEq' for k in range(derived, source.mate[derived])):
            source.put_before(source.mate[derived], ', PartialEq, Eq', 'derive of ==')


def is_compared(source, name):
    """Whether a file has an `impl PartialEq` for a type."""
    return any(source.text(at) == 'PartialEq' and source.text(at + 1) == 'for'
               and source.text(at + 2) == name for at in range(len(source.code)))


def derive_of(source, item):
    """The position of the `(` of an item's derive."""
    for at in range(source.with_attributes(item), item):
        if source.text(at) == 'derive':
            return at + 1
    return None


def entry(source):
    """`fn main(rt: HostRuntime)` is called by an entry that gives it the runtime."""
    for function in source.functions():
        start, end = function.params
        if function.name != 'main' or source.depth_of(function.fn) or start + 1 == end:
            continue
        source.replace(function.fn + 1, 'program', 'entry')
        source.put_on_top('#![cfg_attr(unix, no_main)]\n', 'entry')
        source.tail = '\n%s::entry!(program);\n' % STD


def c_functions(source):
    """A slice that C passes is a pointer and a length, and the allocator is no argument.

    Rattle passes a slice to an `extern "C"` function as two words; Rust leaves that open.
    """
    for function in source.functions():
        if source.text(function.fn - 1) != '"C"' or not function.body:
            continue
        lets = []
        for begin, stop in source.parts(function.params[0] + 1, function.params[1]):
            name, kind = source.text(begin), [source.text(k) for k in range(begin + 2, stop)]
            if kind == ['Global']:
                source.drop_part(begin, stop, 'extern "C": allocator')
                lets.append('let %s = Global;' % name)
            elif kind[0] == '&' and kind[-1] == ']' and ';' not in kind:
                mutable = kind[1] == 'mut'
                item = ' '.join(kind[kind.index('[') + 1:-1])
                source.drop(begin, stop, 'extern "C": slice')
                source.code[begin].before.append(('extern "C": slice', '%s_at: *%s %s, %s_len: usize' % (
                    name, 'mut' if mutable else 'const', item, name)))
                lets.append('let %s = unsafe { %s::c::slice%s(%s_at, %s_len) };' % (
                    name, STD, '_mut' if mutable else '', name, name))
        if lets:
            source.put_before(function.body[0] + 1, '\n'.join(lets) + '\n', 'extern "C": slice')


def prelude(source):
    """Imports what Rattle's prelude has in the place of Rust's, or beside it."""
    counts, brought = mentions(source), set(source.brought)
    brought.update(leaf.name for use in uses(source) for leaf in use.leaves())
    brought.update(items(source))
    texts = {(source.text(at - 1), source.text(at), source.text(at + 1))
             for at in range(len(source.code)) if source.code[at].kind == IDENT}
    paths = [name for name in MACROS if any(t[1] == name and t[2] == '!' for t in texts)]
    for name, path in PRELUDE.items():
        if name in brought:
            continue
        if any(t[1] == name and t[0] not in ('::', '.') for t in texts):
            paths.append(path)
    for name, method in OF_EXTENSIONS.items():
        if method in counts:
            paths.append('ext::%s as _' % name)
    if not paths:
        return
    lines = ''.join('use %s::%s;\n' % (STD, path) for path in sorted(paths))
    source.put_on_top(lines, 'prelude')


def builder(source, commit):
    """A text that names the toolchain which proved the program says who built this one, of what."""
    for at, token in enumerate(source.code):
        if token.kind == STRING and PROVED in token.text:
            built = 'built with cargo at %s, from sources for rattle-kit-' % commit
            source.replace(at, token.text.replace(PROVED, built), 'name of the toolchain')


def rewrite_all(source, commit):
    builder(source, commit)
    for rewrite in (paths_of_std, methods, plain_enums, c_functions, let_else, unsafe_words, prelude, younger, entry):
        rewrite(source)
