"""Cuts a Rattle file into tokens.

Rattle is Rust with contracts, and contracts are written in another language, antt. In antt a quote
ends a name, so a contract is one token here, as long as its braces reach; all else is a token of Rust.
"""
import re

SPACE, COMMENT, DOC, GHOST = 'space', 'comment', 'doc', 'ghost'
STRING, CHAR, LIFETIME, IDENT, NUMBER, PUNCT = 'string', 'char', 'lifetime', 'ident', 'number', 'punct'
TRIVIA = (SPACE, COMMENT, DOC)

PATTERN = re.compile(r'''
    (?P<space>\s+)
  | (?P<doc>///(?!/)[^\n]*|//![^\n]*)
  | (?P<comment>//[^\n]*)
  | (?P<string>[bc]?"(?:[^"\\]|\\.)*"|[bc]?r(?P<hashes>\#*)".*?"(?P=hashes))
  | (?P<char>b?'(?:[^'\\\n]|\\(?:x[0-9a-fA-F]{2}|u\{[^}]*\}|.))')
  | (?P<lifetime>'[A-Za-z_][A-Za-z0-9_]*)
  | (?P<ident>[A-Za-z_][A-Za-z0-9_]*)
  | (?P<number>[0-9][A-Za-z0-9_]*(?:\.[0-9][A-Za-z0-9_]*)?)
  | (?P<punct><<=|\.\.=|\.\.\.|->|=>|::|\.\.|==|!=|<=|>=|&&|\|\||[+\-*/%^&|]=
      |[-+*/%^!&|=<>@.,;:\#$?~()\[\]{}])
''', re.X | re.S)

CLAUSE = re.compile(r'(requires|ensures)\*?(?:\s+[A-Za-z_][A-Za-z0-9_\']*)?\s*(?=\{)')
GHOST_USE = re.compile(r'(?:pub(?:\([a-z]+\))?\s+)?ghost\s+use\s')
GHOST_MEMBER = re.compile(r'(?:pub(?:\([a-z]+\))?\s+)?ghost\s+[A-Za-z_][A-Za-z0-9_]*\s*(?=[:=])')
STARTS = re.compile(r'(?:pub(?:\([a-z]+\))?\s+)?(?:ghost|requires|ensures)\b')
ANTT = re.compile(r'"(?:[^"\\]|\\.)*"|//[^\n]*|[{}]', re.S)
BY = re.compile(r'\s*by\s*(?=\{)')
EQUALS = re.compile(r'\s*=\s*(?=\{)')


class Refused(Exception):
    """A form that the script does not know, with its file and line."""

    def __init__(self, path, line, what):
        super().__init__('%s:%d: %s' % (path, line, what))


class Token:
    """A token, its line, the rule that took it out, if one did, what it was before a rule replaced
    it, and what rules wrote before it."""

    __slots__ = ('kind', 'text', 'line', 'gone', 'was', 'before')

    def __init__(self, kind, text, line):
        self.kind, self.text, self.line = kind, text, line
        self.gone = self.was = None
        self.before = []

    def __repr__(self):
        return '%s %r' % (self.kind, self.text)


def group_end(path, text, at):
    """Returns the end of the braces that open at `at`, in antt."""
    depth, start = 0, at
    while True:
        found = ANTT.search(text, at)
        if not found:
            raise Refused(path, text.count('\n', 0, start) + 1, 'braces that do not close')
        at = found.end()
        if found.group() == '{':
            depth += 1
        elif found.group() == '}':
            depth -= 1
            if depth == 0:
                return at


def ghost_end(path, text, at):
    """Returns the end of the contract's part that starts at `at`, and the rule's name."""
    line = text.count('\n', 0, at) + 1
    found = GHOST_USE.match(text, at)
    if found:
        end = found.end()
        while text[end] != ';':
            end = group_end(path, text, end) if text[end] == '{' else end + 1
        return end + 1, 'ghost use'
    found = CLAUSE.match(text, at)
    if found:
        return group_end(path, text, found.end()), found.group(1)
    found = GHOST_MEMBER.match(text, at)
    if not found:
        raise Refused(path, line, 'a ghost form that is not known')
    end = found.end() + 1
    while text[end].isspace():
        end += 1
    if text[end] != '{':
        raise Refused(path, line, 'a ghost member without braces')
    end = group_end(path, text, end)
    for more in (BY, EQUALS):
        after = more.match(text, end)
        if after:
            end = group_end(path, text, after.end())
    after = re.compile(r'\s*[,;]').match(text, end)
    return after.end() if after else end, 'ghost member'


def cut(path, text):
    """Returns the tokens of a text."""
    tokens, at, line = [], 0, 1
    while at < len(text):
        starts = STARTS.match(text, at) if text[at] in 'pgre' else None
        if starts and (at == 0 or not (text[at - 1].isalnum() or text[at - 1] in '_.')):
            end, rule = ghost_end(path, text, at)
            token = Token(GHOST, text[at:end], line)
            token.gone = rule
        else:
            found = PATTERN.match(text, at)
            if not found or text.startswith('/*', at):
                raise Refused(path, line, 'a character of no token: %r' % text[at])
            kind = STRING if found.lastgroup == 'hashes' else found.lastgroup
            token, end = Token(kind, found.group(), line), found.end()
        tokens.append(token)
        line += token.text.count('\n')
        at = end
    return tokens
