"""What younger Rust says in another form than Rust 1.63, which is the least that builds this."""
from names import mentions
from tokens import IDENT

# Methods that plain_std::younger has for a std that has not.
YOUNGER = ('cast_signed', 'from_octets', 'is_some_and', 'split_first_chunk', 'to_bits')
ELSE, PATTERN = 'let .. else', 'let .. else: pattern'


def bindings(words):
    """The names that a pattern binds, those that change with `mut`."""
    found = []
    for at, word in enumerate(words):
        before, after = words[at - 1] if at else '', words[at + 1] if at + 1 < len(words) else ''
        if not (word[0].islower() or word[0] == '_' and len(word) > 1) or not word.isidentifier():
            continue
        if word in ('ref', 'mut', 'box', 'true', 'false') or before == '::':
            continue
        if after not in ('::', '(', '{', '!', ':'):
            found.append((before == 'mut' and words[at - 2:at - 1] != ['ref'], word))
    return found


def else_of(source, at):
    """The `=` and the `else` of the `let` at a position, if it has both."""
    equals, inside = None, False
    while at < len(source.code):
        text = source.text(at)
        if text in ('(', '[', '{'):
            at = source.mate[at]
        elif text in (';', ')', ']', '}'):
            return None
        elif text == '=' and equals is None:
            equals = at
        elif text == 'if' and equals is not None:
            inside = True
        elif text == 'else' and equals is not None:
            return None if inside else (equals, at)
        at += 1
    return None


def let_else(source):
    """`let P = e else { .. };` is `let (names) = match e { P => (names), _ => { .. } };`."""
    found = []
    for at, token in enumerate(source.code):
        if token.text == 'let' and token.kind == IDENT and source.text(at - 1) in (';', '{', '}'):
            both = else_of(source, at + 1)
            if both:
                found.append((at, *both))
    for at, equals, other in found:
        if any(token.before for token in source.code[at + 1:equals]):
            source.refuse(at, 'a pattern that a rule wrote before')
        words = [source.text(k) for k in range(at + 1, equals)]
        names = bindings(words)
        pattern = [word for k, word in enumerate(words) if word != 'mut' or words[k - 1:k] in (['&'], ['ref'])]
        left = ['mut ' * changes + name for changes, name in names]
        one = '%s' if len(names) == 1 else '(%s)'
        block, end = other + 1, source.mate[other + 1] + 1
        if source.text(end) != ';':
            source.refuse(at, 'a let .. else without its ;')
        source.put_before(equals, one % ', '.join(left) + ' ', ELSE)
        source.put_before(equals + 1, 'match ', ELSE)
        source.put_before(block, '{ %s => %s, _ => ' % (' '.join(pattern), one % ', '.join(n for _, n in names)), ELSE)
        source.put_before(end, ' }', ELSE)
        source.drop(at + 1, equals, PATTERN)
        source.drop(other, block, ELSE)
    source.settle()


def unsafe_words(source):
    """`#[unsafe(..)]` is `#[..]`, and a block `unsafe extern` is `extern`."""
    for at in range(len(source.code)):
        if source.text(at) != 'unsafe':
            continue
        if source.text(at - 1) == '[' and source.text(at - 2) == '#':
            end = source.mate[at + 1]
            source.drop(at, at + 2, 'unsafe attribute')
            source.drop(end, end + 1, 'unsafe attribute')
        elif source.text(at + 1) == 'extern' and source.text(at + 3) == '{':
            source.drop(at, at + 1, 'unsafe extern')
    source.settle()


def younger(source):
    """Imports the traits that have what an older std has not. A std that has it calls its own."""
    counts = mentions(source)
    from_str = any(source.text(at) == 'str' and source.text(at + 2) == 'from_utf8'
                   and source.text(at - 1) != '::' for at in range(len(source.code)))
    if from_str or any(name in counts for name in YOUNGER):
        source.put_on_top('#[allow(unused_imports)]\nuse plain_std::younger::*;\n', 'younger method')
