"""A file under way: its tokens, which of them are gone, and what comes before which."""
from tokens import COMMENT, DOC, GHOST, IDENT, PUNCT, SPACE, TRIVIA, Refused, cut

OPEN = {'(': ')', '[': ']', '{': '}'}
CLOSE = {closing: opening for opening, closing in OPEN.items()}


class Source:
    """One file of a crate."""

    def __init__(self, crate, path, rel, text):
        self.crate, self.path, self.rel = crate, path, rel
        self.tokens = cut(path, text)
        self.rules = {}
        self.brought = set()
        self.tail = ''
        self.place = {id(token): at for at, token in enumerate(self.tokens)}
        self.changed = True
        self.settle()

    def settle(self):
        """Lists the tokens of the code that are left, and matches their brackets."""
        if not self.changed:
            return
        self.changed = False
        self.code = [t for t in self.tokens if t.kind not in TRIVIA and not t.gone]
        self.mate = {}
        stack = []
        for at, token in enumerate(self.code):
            if token.kind != PUNCT:
                continue
            if token.text in OPEN:
                stack.append(at)
            elif token.text in CLOSE:
                if not stack or self.code[stack[-1]].text != CLOSE[token.text]:
                    raise Refused(self.path, token.line, 'brackets that do not match')
                self.mate[at] = stack.pop()
                self.mate[self.mate[at]] = at
        if stack:
            raise Refused(self.path, self.code[stack[-1]].line, 'a bracket that does not close')

    def text(self, at):
        """The text of a token of the code, and nothing past the ends."""
        return self.code[at].text if 0 <= at < len(self.code) else ''

    def is_ident(self, at):
        return 0 <= at < len(self.code) and self.code[at].kind == IDENT

    def line(self, at):
        return self.code[min(at, len(self.code) - 1)].line

    def refuse(self, at, what):
        raise Refused(self.path, self.line(at), what)

    def count(self, rule):
        self.rules[rule] = self.rules.get(rule, 0) + 1

    def drop(self, start, end, rule):
        """Takes out the code from `start` to before `end`, with the comments inside."""
        if start >= end:
            return
        first = self.place[id(self.code[start])]
        last = self.place[id(self.code[end - 1])]
        for token in self.tokens[first:last + 1]:
            if not token.gone:
                token.gone = rule
        self.changed = True
        self.count(rule)

    def drop_item(self, start, end, rule):
        """Takes out an item, with its attributes and the comments right above it."""
        start = self.with_attributes(start)
        self.drop(start, end, rule)
        self.drop_comments(self.place[id(self.code[start])], rule)

    def drop_comments(self, at, rule):
        """Takes out the comments right above the token at `at` of all tokens."""
        at -= 1
        while at >= 0:
            token = self.tokens[at]
            if token.gone or token.kind == SPACE and token.text.count('\n') < 2:
                at -= 1
            elif token.kind in (DOC, COMMENT) and not token.text.startswith('//!'):
                token.gone = rule
                at -= 1
            else:
                return

    def put_on_top(self, text, rule):
        """Writes a text after what the file says of itself, and before its first item."""
        at = 0
        while at < len(self.tokens) - 1:
            token = self.tokens[at]
            if token.text == '#' and self.tokens[at + 1].text == '!':
                while self.tokens[at].text != ']':
                    at += 1
            elif token.kind not in (SPACE, GHOST) and not token.text.startswith('//!'):
                break
            at += 1
        self.tokens[at].before.insert(0, (rule, text))
        self.count(rule)

    def enclosing(self, at):
        """The position of the bracket that is open at a position."""
        at -= 1
        while self.text(at) not in OPEN:
            at = self.mate[at] - 1 if self.text(at) in CLOSE else at - 1
        return at

    def with_attributes(self, start):
        """The start of the attributes above an item."""
        while self.text(start - 1) == ']':
            opening = self.mate[start - 1]
            if self.text(opening - 1) != '#':
                break
            start = opening - 1
        return start

    def put_before(self, at, text, rule):
        """Writes a text before a token of the code."""
        self.code[at].before.append((rule, text))
        self.count(rule)

    def replace(self, at, text, rule):
        """Writes a text in the place of a token of the code."""
        self.code[at].was = (rule, self.code[at].text)
        self.code[at].text = text
        self.count(rule)

    def angle_end(self, at):
        """The position after the `>` of the `<` at `at`."""
        depth = 0
        while at < len(self.code):
            text = self.text(at)
            if text in OPEN:
                at = self.mate[at]
            elif text == '<':
                depth += 1
            elif text == '>':
                depth -= 1
                if depth == 0:
                    return at + 1
            elif text in (';', '}', ')'):
                break
            at += 1
        self.refuse(at, 'a < that does not close')

    def parts(self, start, end):
        """The parts between the commas from `start` to `end`, as pairs of positions."""
        found, begin, at = [], start, start
        while at < end:
            text = self.text(at)
            if text in OPEN:
                at = self.mate[at]
            elif text == '<' and self.is_generic(at):
                at = self.angle_end(at) - 1
            elif text == ',':
                found.append((begin, at))
                begin = at + 1
            at += 1
        if begin < end:
            found.append((begin, end))
        return found

    def is_generic(self, at):
        """Whether a `<` opens parameters: it follows a type's name or `::`, and closes."""
        before = self.text(at - 1)
        if before in ('::', 'impl', 'for', 'fn', '&', ',', '(', '<', ':', '->', '='):
            return True
        return self.is_ident(at - 1) and before[:1].isupper() and not before.isupper()

    def drop_part(self, start, end, rule):
        """Takes out a part of a list with one comma, if there is one."""
        if self.text(end) == ',':
            end += 1
        elif self.text(start - 1) == ',':
            start -= 1
        self.drop(start, end, rule)

    def functions(self):
        """The functions: where each starts, and the positions of its parts."""
        return [Function(self, at) for at, token in enumerate(self.code)
                if token.text == 'fn' and token.kind == IDENT and self.is_ident(at + 1)]

    def depth_of(self, at):
        """How many braces are open at a position."""
        return sum(1 for opening, closing in self.mate.items()
                   if opening < at < closing and self.text(opening) == '{')

    def write(self):
        """The text that is left. A line of which all is gone goes too."""
        gone = '\0'
        out = []
        for token in self.tokens:
            out += [text for _, text in token.before]
            if token.gone:
                out.append(gone)
            else:
                out.append(token.text)
        lines = []
        for line in ''.join(out).split('\n'):
            left = line.replace(gone, '')
            if gone in line and not left.strip():
                continue
            lines.append(left.rstrip() if gone in line else left)
        return '\n'.join(lines).strip('\n') + '\n' + self.tail


class Function:
    """The positions of a function's parts in the code."""

    def __init__(self, source, at):
        self.source, self.fn, self.name = source, at, source.text(at + 1)
        at += 2
        self.generics = None
        if source.text(at) == '<':
            self.generics = (at, source.angle_end(at))
            at = self.generics[1]
        if source.text(at) != '(':
            source.refuse(at, 'a function without parameters')
        self.params = (at, source.mate[at])
        at = self.params[1] + 1
        self.result = source.text(at) == '->'
        while source.text(at) not in ('{', ';'):
            at = source.mate[at] + 1 if source.text(at) in OPEN else at + 1
        self.body = (at, source.mate[at]) if source.text(at) == '{' else None
        self.end = (self.body[1] if self.body else at) + 1

    def start(self):
        """Where the item starts, with its visibility and the words before `fn`."""
        source, at = self.source, self.fn
        while True:
            before = source.text(at - 1)
            if before in ('pub', 'const', 'unsafe', 'extern', 'final', '"C"'):
                at -= 1
            elif before == ')' and source.text(source.mate[at - 1] - 1) == 'pub':
                at = source.mate[at - 1] - 1
            else:
                return at
