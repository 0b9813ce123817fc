"""Checks what the script wrote: by another way than it was written.

The tokens of a written file are those of its source, without what is gone and with what rules wrote.
What is gone has the shape that its rule says, and no word of a contract is left.
"""
import re
from collections import Counter

from tokens import GHOST, STRING, CHAR, TRIVIA, Refused, cut

NAME = r'[A-Za-z_]\w*'
VISIBLE = r'(pub(\([a-z]+\))?)?'
# What a run of tokens that a rule took out may be, written without spaces.
SHAPES = {
    'tactic': r'#!?\[(tactic|cycle)\(.*\)\]',
    'derive(Drop)': r'#\[derive\(Drop\)\]|Drop,|,Drop|Drop',
    'Model': r'(#\[.*\])*impl.*Modelfor.*\{\}',
    'bound Drop': r'\+Drop|Drop\+|:Drop|where' + NAME + r':Drop,?|' + NAME + r':Drop,?',
    'final': r'final',
    'label': r"'" + NAME + r':',
    'law': r'(#\[.*\])*' + VISIBLE + r'fn' + NAME + r'(<.*>)?\([^{}]*\)(where[^{}]*)?\{\}',
    'call of a law': r'(let_=)?(' + NAME + r'::)*' + NAME + r'\([^?=!]*\);?',
    'ghost struct': r'(#\[.*\])*(' + VISIBLE + r'struct.*|impl.*)',
    'ledger: parameter of a type': r'<.*>|' + NAME + r':Ledger,?|,' + NAME + r':Ledger',
    'ledger: argument of a type': r'::<.*>|' + NAME + r',?|,' + NAME,
    'ledger: parameter': r',?(mut)?' + NAME + r':[^:]*,?',
    'ledger: statement': r'(let(mut)?)?' + NAME + r'[=.].*;',
    'ledger: argument': r',?(&(mut)?)?' + NAME + r'(::.*\))?,?',
    'module of which nothing is left': r'(#\[.*\])*' + VISIBLE + r'mod' + NAME + r';',
    'import of what is gone': r'(' + VISIBLE + r'use)?[\w:{},*]*;?',
    'import that only contracts read': r'(use)?[\w:{},*]*;?',
    'path of std': r'use[\w:{},*]*;',
    'extern "C": allocator': NAME + r':Global,?|,' + NAME + r':Global',
    'extern "C": slice': NAME + r':&(mut)?\[.*\]',
    'let .. else: pattern': r'[^;=]*',
    'let .. else': r'else',
    'unsafe attribute': r'unsafe\(|\)',
    'unsafe extern': r'unsafe',
}
WORDS = {'ghost', 'requires', 'ensures', 'Ledger', 'Model', 'tactic', 'Drop'}


def runs_of(source):
    """What each rule took out of each run of tokens that are gone, with the line of its start."""
    runs, line = {}, 0
    for token in source.tokens:
        if token.kind in TRIVIA or token.kind == GHOST:
            continue
        if token.gone:
            line = line or token.line
            runs[token.gone] = runs.get(token.gone, '') + token.text
        else:
            yield from ((rule, line, text) for rule, text in runs.items())
            runs, line = {}, 0
    yield from ((rule, line, text) for rule, text in runs.items())


def check_shapes(source):
    for rule, line, text in runs_of(source):
        shape = SHAPES.get(rule)
        if shape is None:
            raise Refused(source.path, line, 'a rule without a shape: %s' % rule)
        if not re.fullmatch('(%s)+' % shape, text):
            raise Refused(source.path, line, 'not what "%s" takes out: %s' % (rule, text[:80]))


def texts_of(tokens):
    return [token.text for token in tokens if token.kind not in TRIVIA]


def check_tokens(source, path, text):
    """Compares the tokens of a written text with those of the source that are left."""
    wanted = []
    for token in source.tokens:
        wanted += [part for _, put in token.before for part in texts_of(cut(path, put))]
        if not token.gone and token.kind not in TRIVIA:
            wanted.append(token.text)
    wanted += texts_of(cut(path, source.tail))
    found = cut(path, text)
    if texts_of(found) != wanted:
        raise Refused(path, 1, 'not the tokens of its source')
    for token in found:
        if token.kind in TRIVIA or token.kind in (STRING, CHAR):
            continue
        if token.kind == GHOST or token.text in WORDS or not token.text.isascii():
            raise Refused(path, token.line, 'a word of a contract is left: %s' % token.text)


def loose(path, text):
    """How often each token is in a text, without those that a formatter adds or drops."""
    return Counter(t for t in texts_of(cut(path, text)) if t not in (',', '{', '}', '(', ')', ';'))


def check_format(path, before, after):
    """Compares a text with what rustfmt made of it."""
    if loose(path, before) != loose(path, after):
        raise Refused(path, 1, 'rustfmt changed its tokens')
