"""Reads crates.txt, the definitions (specs/*.antt) and the code (src/*.rt) of the repository, for tools/book."""

import re
from pathlib import Path

PLAIN = re.compile(r'\[\]|"(?:[^"\\]|\\.)*"|--[^\n]*|\n|[ \t]+|[(){}\[\],;.]|[^\s(){}\[\],;."]+')
RUST = re.compile(r"\"(?:[^\"\\]|\\.)*\"|//[^\n]*|\n|[ \t]+|\w+(?:[-']\w+)*|[^\s\w]")
WORDS = re.compile(r"(?:(?:abbrev|unfoldable|pub|record|data|opaque)\s+)*")


KEYWORDS = {"abbrev", "pub", "unfoldable", "record", "data", "where", "let", "in", "do", "Type", "Unit", "module", "open", "use", "elim", "_", "tt"}
BUILT_IN = ("zero", "suc", "true", "false", "pos", "negsuc", "inl", "inr", "refl", "[]")


class Node:
    """What has a name and a text: a definition, an item of code, or a definition of the toolchain."""

    def __init__(self, kind, crate, module, name, path, line, words, text):
        self.kind, self.crate, self.module, self.name = kind, crate, module, name
        self.path, self.line, self.words, self.text = path, line, words, text
        self.parts = []          # [text, pieces]: a signature or a clause, and its pieces with what they lead to
        self.cites = []          # the nodes that it cites, in the order of the first mention
        self.public = True
        self.key = f"{crate}:{module}.{name}"

    def lines(self, text=None):
        return sum(1 for line in (self.text if text is None else text).splitlines() if line.strip())


class Module:
    def __init__(self, crate, name, path):
        self.crate, self.name, self.path = crate, name, path
        self.head, self.heads = "", {}
        self.names, self.aliases = {}, {}     # local name: (crate, path of the module, name there); alias: (crate, path)
        self.decls, self.exports, self.passed = [], {}, {}
        self.used, self.whole, self.parameters = set(), {}, set()


def split_list(text):
    return [item.strip() for item in text.split(",") if item.strip()]


def read_use(line, module):
    """Enters what a line `use Rattle.CRATE.specs.PATH.{..}` brings in."""
    found = re.match(r"(pub )?(?:ghost )?use (?:Rattle\.)?([\w]+)\.((?:specs|proofs)\.)?(.*?);?$", line.strip())
    if not found:
        raise SystemExit(f"{module.path}: cannot read: {line}")
    passed, crate, _, rest = found.groups()
    path, brace, listed = rest.partition(".{")
    if brace:
        for item in split_list(listed.rstrip("}; ")):
            name, _, local = item.partition(" as ")
            module.names[local or name] = (crate, path, name)
            if passed:
                module.passed[local or name] = (crate, path, name)
                module.used.add(local or name)
    else:
        path, _, local = path.partition(" as ")
        module.aliases[local or path.split(".")[-1]] = (crate, path)
        if passed:
            module.whole[local or path.split(".")[-1]] = (crate, path)


def shape(name):
    """The tokens that write an operator such as `◌++◌`, or the name itself."""
    if "◌" not in name:
        return [name]
    return [part for part in name.split("◌") if part]


def read_module(crate, path):
    """A module of definitions: its head, what it brings in, and its declarations with their comments."""
    module = Module(crate, path.stem, path)
    lines = path.read_text().splitlines()
    inside, parameters = False, set()
    for number, line in enumerate(lines):                # what stands in `module _ (..) where` has these names besides
        if line.startswith("module _"):
            inside = True
            parameters |= {name for names in re.findall(r"[({]([\w ]+) :", line) for name in names.split()}
            lines[number] = "-- For any " + line.removeprefix("module _ ").removesuffix(" where") + ":"
        elif inside:
            inside = line.startswith("  ") or not line.strip()
            lines[number] = line.removeprefix("  ") if inside else line
    module.parameters = parameters
    at, comment = 0, []
    while at < len(lines) and lines[at].startswith("--"):
        comment.append(lines[at][2:].strip())
        at += 1
    module.head, comment = " ".join(comment), []
    decl = None
    while at < len(lines):
        line = lines[at]
        if not line.strip():
            comment, decl = [], decl if at + 1 < len(lines) and lines[at + 1].startswith(" ") else None
        elif re.match(r"(pub )?use ", line):
            while "{" in line and "}" not in line:
                at += 1
                line += " " + lines[at].strip()
            read_use(line, module)
        elif line.startswith("--"):
            comment.append(line[2:].strip())
        elif re.match(r"pub mod |mod |infix", line):
            pass
        elif line.startswith((" ", "}", ")", "]", "unfolding ")):
            if decl:
                decl.text += "\n" + line
        else:
            words = WORDS.match(line)[0].split()
            name = (re.match(r"[^\s:({]+", line[WORDS.match(line).end():]) or [None])[0]
            tokens = line.split()
            goes_on = decl and (name == decl.name or any(part in tokens for part in shape(decl.name)) and not words)
            if goes_on:
                decl.text += "\n" + line
            else:
                kind = next((word for word in words if word in ("record", "data")), "definition")
                decl = Node(kind, crate, path.stem, name, path, at + 1, " ".join(comment), line)
                decl.public = "pub" in words
                if kind == "definition" and "abbrev" not in words and "unfoldable" not in words:
                    decl.kind = "law"
                module.decls.append(decl)
            comment = []
        at += 1
    for decl in module.decls:
        module.exports[decl.name] = decl
        if decl.kind == "data":
            for found in re.findall(r"(?m)^  ([^\s:]+) :", decl.text):
                module.exports[found] = decl
    return module


def clauses(text):
    """The signature and the clauses of a declaration, each with the lines that go on with it."""
    parts = []
    for line in text.splitlines():
        if parts and (line.startswith((" ", "}", ")", "]")) or not line.strip()):
            parts[-1] += "\n" + line
        else:
            parts.append(line)
    return parts


def left_side(clause):
    """Where the ` =` of a clause is, outside of brackets; 0 if it has none."""
    depth = 0
    for found in PLAIN.finditer(clause):
        token = found[0]
        depth += token in "({[" and len(token) == 1
        depth -= token in ")}]" and len(token) == 1
        if token == "=" and depth == 0:
            return found.start()
    return 0


def is_variable(token):
    return bool(re.match(r"[^\W\d_A-Z◌][\w'-]*$|_\w*$|[A-Z]\w*$", token))


def read_pieces(text, look, bound, pattern_until=0, fields=False, strange=None, rust=False):
    """Cuts a text into pieces (text, what it leads to). `look(name, alias)` finds what a name means; names that are bound
    where they stand mean nothing. Before `pattern_until`, lower-case names are bound. `strange` gets the names that are
    neither bound nor known."""
    pieces, scopes = [], [set(bound)]
    tokens = [(found[0], found.start()) for found in (RUST if rust else PLAIN).finditer(text)]
    solid = [i for i, (token, _) in enumerate(tokens) if token.strip()]
    after = {i: solid[n + 1] if n + 1 < len(solid) else None for n, i in enumerate(solid)}
    before = {i: solid[n - 1] if n else None for n, i in enumerate(solid)}
    opened, binding, pending, binders = [], None, [], set()

    def text_at(i):
        return tokens[i][0] if i is not None else ""

    def closing(i):
        depth = 0
        for j in solid[solid.index(i):]:
            depth += text_at(j) in ("(", "{", "[")
            depth -= text_at(j) in (")", "}", "]")
            if depth == 0:
                return j
        return None

    for i, (token, start) in enumerate(tokens):
        target = None
        if not token.strip() or token.startswith(('"', "--", "//")):
            pass
        elif token in ("(", "{"):
            names, j, where = [], after[i], []
            while j is not None and is_variable(text_at(j)):
                names.append(text_at(j))
                where.append(j)
                j = after[j]
            binds = names if names and text_at(j) == ":" else []
            binders.update(where if binds else [])
            opened.append((binds, token))
            scopes.append(set())
        elif token == "[":
            opened.append(([], token))
            scopes.append(set())
        elif token in (")", "}", "]"):
            if opened:
                binds, _ = opened.pop()
                scopes.pop()
                scopes[-1].update(binds)
        elif token == "λ":
            binding = "λ"
        elif token == "." and binding == "λ":
            binding = None
        elif binding == "λ":
            if is_variable(token):
                scopes[-1].add(token)
        elif token == "let":
            nxt = after[i]
            while nxt is not None and text_at(nxt) not in ("=", ":"):
                if is_variable(text_at(nxt)):
                    scopes[-1].add(text_at(nxt))
                nxt = after[nxt]
        else:
            near = i > 0 and tokens[i - 1][0] == "."
            is_field = near and i > 1 and tokens[i - 2][0].strip() and tokens[i - 2][0] not in ("(", "{")
            if is_field:
                target = pieces[-2][2] if len(pieces) > 1 and pieces[-2][2] else None
                if isinstance(target, tuple):                      # an alias of a module, or a type with its variants
                    target = look(token, target)
                    if target:
                        pieces[-2] = (pieces[-2][0], None, None)
                else:
                    target = look(token, "field") if token[:1].isupper() else None
            elif token == "←":                                 # `do` stands for it
                target = look("◌>>=◌", None)
            elif text_at(before[i]) == "open" or token in ("|", "↦"):
                binding = "|" if token == "|" else None
            elif binding == "|" and re.match(r"[a-z_]", token) and text_at(after[i]) != "." and not is_constructor(look(token, None)):
                scopes[0].add(token)
            elif start == 0 and pattern_until and not is_variable(text_at(after[i])) and text_at(after[i]) not in ("=", "(", "["):
                scopes[0].add(token)                       # what stands before an operator that is defined
            elif i in binders or any(token in scope for scope in scopes):
                pass
            elif text_at(after[i]) == "←" or start < pattern_until and token[:1].isupper() and start > 0 and \
                    text_at(after[i]) != "." and not look(token, None):
                scopes[0].add(token)
            elif start < pattern_until and re.match(r"[a-z_]", token) and text_at(after[i]) != "." and start > 0 and \
                    not is_constructor(look(token, None)) and \
                    not (text_at(before[i]) == "(" and is_variable(text_at(after[i])) and look(token, None)):
                scopes[0].add(token)
            elif opened and opened[-1][1] == "{" and text_at(after[i]) == "=":
                pass
            elif fields and text_at(after[i]) == ":" and len(opened) == 0:
                scopes[0].update(pending)                  # a field is known to those after it
                pending = [token]
            else:
                target = look(token, None)
                if target is None and strange is not None and re.match(r"[^\W\d]", token):
                    strange.append(token)
        pieces.append((token, target if isinstance(target, Node) else None, target))
    return [(token, target) for token, target, _ in pieces]


def is_constructor(node):
    return isinstance(node, Node) and node.kind == "toolchain" and node.builds or \
        isinstance(node, Node) and node.kind in ("data", "enum")


class Item:
    """A function of code with its contract, or nothing more than where it is."""

    def __init__(self, crate, path, owner, name, line):
        self.crate, self.path, self.owner, self.name, self.line = crate, path, owner, name, line
        self.words, self.signature, self.contract, self.body = "", "", [], ""
        self.public = self.test = False
        self.calls, self.callers = [], []


class CodeFile:
    def __init__(self, crate, path):
        self.crate, self.path, self.head = crate, path, ""
        self.functions, self.types, self.uses, self.ghosts = [], [], {}, Module(crate, path.stem, path)


def doc_above(lines, at):
    """The `///` lines above a line, past attributes, and where they begin."""
    words, at = [], at - 1
    while at >= 0 and re.match(r"\s*(///|#\[|//)", lines[at]) or at >= 0 and re.match(r"\s*[\w(), \"=:./-]*\)\]$", lines[at]):
        if lines[at].strip().startswith("///"):
            words.append(lines[at].strip()[3:].strip() or "\n\n")
        at -= 1
    return " ".join(reversed(words)).replace(" \n\n ", "\n\n")


def rust_use(text, uses):
    """Enters what `use a::{b, c as d}` brings in: local name: path."""
    def enter(prefix, rest):
        rest = rest.strip()
        brace = rest.find("{")
        if brace >= 0:
            inner = rest[brace + 1:rest.rfind("}")]
            depth, item = 0, ""
            for char in inner + ",":
                depth += char == "{"
                depth -= char == "}"
                if char == "," and depth == 0:
                    if item.strip():
                        enter(prefix + rest[:brace], item)
                    item = ""
                else:
                    item += char
        else:
            path, _, local = (prefix + rest).partition(" as ")
            uses[(local or path.split("::")[-1]).strip()] = path.strip()
    enter("", text)


CLAUSE = re.compile(r"    (requires|ensures|decreases|terminates|invariant)\b")
FUNCTION = re.compile(r'(\s*)((?:pub(?:\([a-z ]+\))? )?(?:const )?(?:unsafe )?(?:extern "C" )?)fn (\w+)')
TYPE = re.compile(r"(pub(?:\([a-z ]+\))? )?(struct|enum|trait|const|static|type|union) (\w+)")


def read_code(crate, path):
    """A file of code: its head, its functions with contracts, its types, and what it brings in."""
    file = CodeFile(crate, path)
    lines = path.read_text().splitlines()
    at = 0
    head = []
    while at < len(lines) and lines[at].startswith("//") and not lines[at].startswith("///"):
        head.append(re.sub(r"^//!?\s?", "", lines[at]))
        at += 1
    file.head = "\n".join(head)
    owner, test = None, False
    while at < len(lines):
        line = lines[at]
        stripped = line.strip()
        if re.match(r"\s*ghost use ", line):
            while ";" not in line:
                at += 1
                line += " " + lines[at].strip()
            read_use(line.strip().removeprefix("ghost "), file.ghosts)
        elif re.match(r"(pub(\(crate\))? )?use ", line):
            text = line
            while ";" not in text:
                at += 1
                text += " " + lines[at].strip()
            rust_use(re.sub(r"^(pub(\(crate\))? )?use ", "", text).rstrip(";"), file.uses)
        elif stripped == "#[test]":
            test = True
        elif re.match(r"(unsafe )?impl\b|(pub(\(crate\))? )?(unsafe )?trait ", line):
            text, start = line, at
            while "{" not in text and at + 1 < len(lines):
                at += 1
                text += " " + lines[at].strip()
            owner = re.sub(r"\s*\{.*", "", text)
            if "trait " in owner.split("<")[0] and not owner.startswith(("impl", "unsafe impl")):
                add_type(file, lines, start)
            if text.rstrip().endswith("}"):
                owner = None
        elif line == "}":
            owner = None
        elif FUNCTION.match(line) and (line[0] != " " or owner and line.startswith("    ") and line[4] != " "):
            at = read_function(file, lines, at, owner, test)
            test = False
        elif TYPE.match(line):
            add_type(file, lines, at)
        at += 1
    return file


def add_type(file, lines, at):
    found = TYPE.match(lines[at].removeprefix("unsafe "))
    if not found:
        return
    end = at
    while not (lines[end] == "}" or lines[end].endswith((";", "{}")) and (lines[end][0] != " " or found[2] == "const")
               or end == at and lines[end].endswith("}")):
        end += 1
    text = "\n".join(lines[at:end + 1])
    node = Node(found[2], file.crate, "src/" + file.path.name, found[3], file.path, at + 1, doc_above(lines, at), text)
    node.public = bool(found[1])
    node.file = file
    file.types.append(node)


def owner_name(owner):
    """`Store` of `impl<'a, H: BuildHasher> Store<'a, H>`; `Source for StdSource` of a trait's impl; a trait's own name."""
    text = re.sub(r"^(pub(\(crate\))? )?(unsafe )?", "", owner)
    if text.startswith("trait "):
        return re.match(r"trait (\w+)", text)[1], None
    text = text.removeprefix("impl").strip()
    if text.startswith("<"):
        depth, i = 0, 0
        for i, char in enumerate(text):
            depth += char == "<"
            depth -= char == ">" and text[i - 1] != "-"
            if depth == 0:
                break
        text = text[i + 1:].strip()
    text = re.sub(r"\bwhere\b.*", "", text)
    trait, _, name = text.partition(" for ")
    if not name:
        trait, name = None, trait
    plain = re.match(r"&?(?:'\w+ )?(?:mut )?(?:\w+::)*(\w+)", name.strip())
    return (plain[1] if plain else name.strip()), (re.match(r"(?:\w+::)*(\w+)", trait)[1] if trait else None)


def read_function(file, lines, at, owner, test):
    found = FUNCTION.match(lines[at])
    indent = found[1]
    name, trait = owner_name(owner) if owner else (None, None)
    item = Item(file.crate, file.path, name, found[3], at + 1)
    item.trait, item.test, item.words = trait, test, doc_above(lines, at)
    item.public = "pub " in found[2] or bool(trait) or bool(owner and re.match(r"(pub )?trait", owner))
    item.file = file
    start, end = at, at
    # the signature with its contract ends at the line `{`, `{}`, or at one that ends with `{` or `;`
    body_at = None
    contract = None
    while True:
        line = lines[end]
        if line.startswith(indent) and CLAUSE.match(line, len(indent)) and end > start:
            contract = contract if contract is not None else end
        if line == indent + "{" or line == indent + "{}":
            body_at = end
            break
        if contract is None and line.rstrip().endswith("{") and not line.startswith(indent + "    ") or \
                contract is None and line.rstrip().endswith("{") and (end == start or line.startswith(indent + ")")):
            body_at = end
            break
        if line.rstrip().endswith(";") or contract is None and line.rstrip().endswith(("{}", " }")) and end >= start and \
                (end == start or line.startswith(indent + ")")):
            body_at = None
            break
        end += 1
    stop = contract if contract is not None else end + (0 if lines[end].strip() in ("{", "{}") else 1)
    item.signature = "\n".join(line[len(indent):] for line in lines[start:stop]).rstrip().rstrip("{").rstrip()
    if contract is not None:
        last = end if lines[end] in (indent + "{", indent + "{}") else end + 1
        text = [line[len(indent) + 4:] for line in lines[contract:last]]
        for line in text:
            if re.match(r"(requires|ensures|decreases|terminates|invariant)\b", line):
                item.contract.append(line)
            elif item.contract:
                item.contract[-1] += "\n" + line
    item.lawful = lines[end] == indent + "{}" or lines[end].endswith("{}")
    if body_at is not None and not lines[end].endswith("{}") and not lines[end].endswith(" }"):
        close = end + 1
        while close < len(lines) and lines[close] != indent + "}":
            close += 1
        item.body = "\n".join(lines[end + 1:close])
        end = close
    elif lines[end].endswith(" }"):
        item.body = lines[end]
    file.functions.append(item)
    return end


class Tree:
    """The whole repository."""

    def __init__(self, top, kit=None):
        self.top, self.kit = top, kit
        self.order, self.deps, self.group = [], {}, {}
        heading = ""
        for line in (top / "crates.txt").read_text().splitlines():
            if line.startswith("#"):
                heading = line[1:].strip()
            elif ":" in line:
                name, _, rest = line.partition(":")
                name = name.split()[0]
                self.order.append(name)
                self.deps[name], self.group[name] = rest.split(), heading
        self.own = set(self.order)
        self.modules, self.files, self.types, self.kit_modules, self.problems = {}, {}, {}, {}, []
        self.leaves, self.strange = {}, []
        for crate in self.order:
            for path in sorted((top / "crates" / crate / "specs").glob("*.antt")):
                if path.stem != "Lib":
                    self.modules[crate, path.stem] = read_module(crate, path)
            for path in sorted((top / "crates" / crate / "src").glob("*.rt")):
                self.files[crate, path.stem] = file = read_code(crate, path)
                for node in file.types:
                    self.types[crate, path.stem, node.name] = node
        self.enter_impls()
        for module in self.modules.values():
            for decl in module.decls:
                self.resolve(module, decl)
        for node in self.types.values():
            self.resolve_type(node)
        for file in self.files.values():
            for item in file.functions:
                self.resolve_contract(file, item)

    def enter_impls(self):
        """Adds to each type what `impl Model` says of how contracts see it, and to each trait its ghost items."""
        for file in self.files.values():
            lines = file.path.read_text().splitlines()
            for at, line in enumerate(lines):
                if re.match(r"impl.* Model for ", line):
                    text = line[line.index(" Model for ") + 11:]
                    name = re.match(r"(\w+)", text)[1]
                    end = at
                    while lines[end] != "}" and not lines[end].endswith("{}"):
                        end += 1
                    node = self.types.get((file.crate, file.path.stem, name))
                    if node:
                        body = [each for each in lines[at:end + 1] if "ghost use " not in each]
                        node.text += "\n\n" + re.sub(r"\n\n+", "\n", "\n".join(body))

    # what names mean

    def exported(self, crate, path, name, depth=0):
        """The node of a name of a module; a leaf for the toolchain's."""
        steps = path.split(".")
        if crate in self.own:
            if steps[0] == "declared":
                return self.declared(crate, steps[1:], name)
            if steps[0] == "contracts":
                return None
            module = self.modules.get((crate, path))
            if module and name in module.exports:
                return module.exports[name]
            if module and name in module.passed and depth < 5:
                return self.exported(*module.passed[name], depth + 1)
            if not module:
                return None
            self.problems.append(f"{crate}: {path} has no {name}")
            return None
        return self.leaf(crate, path, name)

    def declared(self, crate, steps, name):
        """The type, trait or constants of a file of code."""
        steps = [step for step in steps if step not in ("TheVariants", "TheConstants")]
        found = self.types.get((crate, steps[0], steps[1] if len(steps) > 1 else name))
        if not found:
            found = self.types.get((crate, steps[0], name)) or next(
                (node for (c, _, n), node in self.types.items() if c == crate and n in (name, *steps)), None)
        return found

    def leaf(self, crate, path, name):
        key = (crate, path, name)
        if key not in self.leaves:
            where = self.follow(crate, path, name)
            crate2, path2, node = where
            old = next((leaf for leaf in self.leaves.values() if (leaf.crate, leaf.module, leaf.name) == (crate2, path2, name)), None)
            if old is None:
                old = Node("toolchain", crate2, path2, name, None, 0, node.words if node else "", node.text if node else "")
                old.builds = bool(node and node.kind == "data" and node.name != name or name in BUILT_IN)
            self.leaves[key] = old
        return self.leaves[key]

    def follow(self, crate, path, name, depth=0):
        """Where a name of the toolchain is defined, past what modules pass on."""
        module = self.kit_module(crate, path)
        if module is None or depth > 8:
            return crate, path, None
        if name in module.exports:
            return crate, path, module.exports[name]
        if name in module.passed:
            return self.follow(*module.passed[name], depth + 1)
        return crate, path, None

    def kit_module(self, crate, path):
        if (crate, path) not in self.kit_modules:
            module = None
            places = [f"{other}/specs" for other in ((crate, "core", "std_alloc") if crate == "std" else (crate,))]
            places += {"lib": ["logic/Lib"], "mathlib": ["antt/port/mathlib/src"], "base": ["logic/Base"]}.get(crate, [])
            for place in places if self.kit else []:
                file = self.kit / place / (path.replace(".", "/") + ".antt")
                if file.exists():
                    try:
                        module = read_module(crate, file)
                        break
                    except (SystemExit, TypeError, AttributeError):
                        module = None
            self.kit_modules[crate, path] = module
        return self.kit_modules[crate, path]

    def looker(self, module, also=None):
        """Finds what a name means in a module: its own, or what it brings in."""
        operators = {}
        for local in [*module.names, *(decl.name for decl in module.decls)]:
            for part in shape(local):
                if "◌" in local:
                    operators[part] = local

        def look(token, alias):
            if alias == "field":
                return also(token, "field") if also else None
            if isinstance(alias, tuple):
                return self.exported(*alias, token)
            name = token if token in module.exports or token in module.names else operators.get(token, token)
            if name in module.exports:
                return module.exports[name]
            if name in module.names:
                module.used.add(name)
                crate, path, there = module.names[name]
                return self.exported(crate, path, there)
            if token in module.aliases:
                module.used.add(token)
                return module.aliases[token]
            return also(token, None) if also else None
        return look

    def resolve(self, module, decl):
        look = self.looker(module)
        bound = set(module.parameters)
        for number, part in enumerate(clauses(decl.text)):
            until = left_side(part) if number else 0
            strange = []
            pieces = read_pieces(part, look, bound, until, decl.kind == "record" and number == 0, strange)
            self.strange += [(token, decl) for token in strange
                             if decl.kind != "law" and token not in KEYWORDS and token != decl.name]
            pieces = [(token, None if target is decl else target) for token, target in pieces]
            decl.parts.append((part, pieces))
        decl.cites = ordered(target for _, pieces in decl.parts for _, target in pieces)

    def code_looker(self, file):
        """What a capital name means in a file of code: a type of its own, or one that it uses."""
        def also(token, alias):
            if not token[:1].isupper():
                return None
            found = self.types.get((file.crate, file.path.stem, token))
            if found:
                return found if alias else found
            path = file.uses.get(token)
            if path:
                steps = path.split("::")
                crate = file.crate if steps[0] in ("crate", "self", "super") else steps[0]
                return self.type_in(crate, steps[-1])
            return None
        return self.looker(file.ghosts, also)

    def type_in(self, crate, name, depth=0):
        if crate not in self.own:
            return None
        found = [node for (c, _, n), node in self.types.items() if c == crate and n == name]
        if found:
            return found[0]
        root = self.files.get((crate, "lib"))
        path = root.uses.get(name) if root else None
        if path and depth < 5:
            steps = path.split("::")
            return self.type_in(crate if steps[0] in ("crate", "self") else steps[0], steps[-1], depth + 1)
        return None

    def resolve_type(self, node):
        """A type cites the types of its fields, and what its ghost parts and its model cite."""
        look = self.code_looker(node.file)
        text = node.text
        if node.kind == "trait":
            text = "\n".join(each for each in ghost_lines(node.text))
        pieces = read_pieces(text, lambda token, alias: look(token, alias if alias != "field" else None), set(), rust=True)
        node.shown = text if node.kind == "trait" else node.text
        node.parts = [(node.shown, [(token, None if target is node else target) for token, target in pieces])]
        node.cites = ordered(target for _, target in node.parts[0][1])

    def resolve_contract(self, file, item):
        look = self.code_looker(file)
        bound = set(re.findall(r"(\w+): ", item.signature)) | {"self", "result"}
        item.pieces = []
        for clause in item.contract:
            found = re.match(r"\w+(?: \w+)?(?=\s*\{)", clause)
            at = found.end() if found else 0
            item.pieces.append((clause[:at], read_pieces(clause[at:], look, bound)))
        item.cites = ordered(target for _, pieces in item.pieces for _, target in pieces)


def ghost_lines(text):
    """The head of a trait and its ghost items, with their comments."""
    lines, kept, doc = text.splitlines(), [], []
    kept.append(lines[0])
    taking = False
    for line in lines[1:]:
        if line.strip().startswith("///"):
            doc.append(line)
        elif line.strip().startswith("ghost ") and "ghost use" not in line or taking:
            kept += doc + [line]
            doc, taking = [], not line.rstrip().endswith(";")
        else:
            doc = []
    return kept + ["}"]


def ordered(nodes):
    return list(dict.fromkeys(node for node in nodes if isinstance(node, Node)))


def find_calls(tree):
    """Enters which function calls which, by their names. A method counts if one type with such a method is named in the
    file, or is the type of `self`."""
    free, methods, typed = {}, {}, {}
    for file in tree.files.values():
        for item in file.functions:
            if item.owner:
                methods.setdefault(item.name, []).append(item)
                typed.setdefault((item.owner, item.name), []).append(item)
            else:
                free.setdefault((item.crate, item.name), []).append(item)
    unclear = 0
    for file in tree.files.values():
        words = set(re.findall(r"\w+", file.path.read_text()))
        near = {file.crate, *tree.deps[file.crate]}
        for item in file.functions:
            found = []
            for mark, name in re.findall(r"((?:[\w>]+::|\.|(?<![\w.:])))(\w+)(?:::<[^()]*>)?\(", item.body):
                if mark == ".":
                    ours = [m for m in methods.get(name, []) if m.crate in near and (m.owner in words or m.owner == item.owner)]
                    if (item.owner, name) in typed and f"self.{name}(" in item.body:
                        ours = [m for m in typed[item.owner, name] if m.crate == item.crate] or ours
                    if len(ours) > 1:
                        unclear += 1
                        ours = []
                elif mark:
                    owner = mark[:-2]
                    owner = item.owner if owner == "Self" else owner
                    ours = [m for m in typed.get((owner, name), []) if m.crate in near]
                    if not ours and owner in near:
                        ours = free.get((owner, name), [])
                else:
                    ours = [m for m in free.get((file.crate, name), []) if m.path == file.path] or free.get((file.crate, name), [])
                    path = file.uses.get(name)
                    if path and path.split("::")[0] not in ("crate", "self", "super"):
                        ours = free_in(tree, free, path.split("::")[0], name)
                    ours = ours[:1]
                found += ours
            item.calls = list(dict.fromkeys(each for each in found if each is not item))
    for file in tree.files.values():
        for item in file.functions:
            for each in item.calls:
                each.callers.append(item)
    return unclear


def free_in(tree, free, crate, name, depth=0):
    if (crate, name) in free:
        return free[crate, name]
    root = tree.files.get((crate, "lib"))
    path = root.uses.get(name) if root else None
    if path and depth < 4:
        steps = path.split("::")
        if steps[0] not in ("crate", "self"):
            return free_in(tree, free, steps[0], steps[-1], depth + 1)
        return free.get((crate, steps[-1]), [])
    return []
