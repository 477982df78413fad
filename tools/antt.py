"""Reads the files of the crates as far as tools/lint and tools/landing need it: what a file brings in and defines, which names
a definition mentions, and its statement up to the names that it binds.

A name in a pattern is taken for a constructor where it is one that the file has, else for a variable. Types are not inferred, so a
field behind a dot is nobody's mention: whoever has the record's value has it by something that names the record.
"""
import glob
import itertools
import re
from collections import namedtuple

Token = namedtuple("Token", "text line column first glued")
Group = namedtuple("Group", "text nodes")
Import = namedtuple("Import", "local module name line")

LEXEME = re.compile(r'(?:--|//).*|"(?:\\.|[^"\\])*"|«[^»]*»|[(){}.;,@]|[^\s(){}.;,@"«»]+')
PATH = re.compile(r"Rattle\.(\w+)\.((?:specs|proofs)\..+)")
PROOF = ("Invariants", "Answers", "Proof")  # the files of a function's proof, whose public names the check asks for
MARKS = {"unfoldable", "abbrev", "pub", "axiom"}
CLOSING = {"(": ")", "{": "}"}


def tokens_of(text):
    """The tokens of an .antt or .rt file, without its comments."""
    text = re.sub(r"\{-.*?-\}", lambda found: re.sub(r"[^\n]", " ", found.group()), text, flags=re.S)
    tokens = []
    for line, content in enumerate(text.split("\n"), 1):
        end = -1
        for found in LEXEME.finditer(content):
            word = found.group()
            if word.startswith(("--", "//")):
                break
            tokens.append(Token(word, line, found.start(), end == -1, end == found.start()))
            end = found.end()
    return tokens


def index_of(tokens, *words):
    """Where the first of the words stands outside all brackets."""
    depth = 0
    for at, token in enumerate(tokens):
        if token.text in "({":
            depth += 1
        elif token.text in ")}":
            depth -= 1
        elif depth == 0 and token.text in words:
            return at
    return None


def closing(tokens):
    """Where the bracket that stands first is closed."""
    depth = 0
    for at, token in enumerate(tokens):
        depth += (token.text in CLOSING) - (token.text in CLOSING.values())
        if depth == 0:
            return at
    return len(tokens)


def promises(text):
    """Of each function of an .rt file what it asks and promises, under its name, a method's with its type's."""
    tokens, own, name, found = tokens_of(text), "", "", {}
    for at, token in enumerate(tokens):
        if token.first and token.column == 0:
            own = tokens[at + 1].text + "::" if token.text == "impl" else ""
        if token.text == "fn":
            name = own + tokens[at + 1].text
        elif token.text in ("requires", "ensures"):
            start = at + 1 + (tokens[at + 1].text != "{")
            clause = tokens[at : start + closing(tokens[start:]) + 1]
            found[name] = (found.get(name, "") + " " + " ".join(word.text for word in clause)).strip()
    return found


def items(tokens):
    """The items of a block: each begins where a line begins at the block's column, outside all brackets."""
    start = depth = 0
    for at, token in enumerate(tokens):
        if at and depth == 0 and token.first and token.column <= tokens[0].column:
            yield tokens[start:at]
            start = at
        depth += (token.text in CLOSING) - (token.text in CLOSING.values())
    if tokens:
        yield tokens[start:]


def tree(tokens):
    """The tokens with each bracket and what stands in it as a Group."""
    levels = [Group("", [])]
    for token in tokens:
        if token.text in CLOSING:
            levels.append(Group(token.text, []))
        elif token.text in ")}" and len(levels) > 1:
            closed = levels.pop()
            levels[-1].nodes.append(closed)
        else:
            levels[-1].nodes.append(token)
    return levels[0].nodes


def leaves(nodes):
    for node in nodes:
        if isinstance(node, Group):
            yield from leaves(node.nodes)
        else:
            yield node


def is_name(node):
    return isinstance(node, Token) and node.text not in ".;,@:="


def binder(node):
    """The names that a group `(x y : T)` binds, and T."""
    if isinstance(node, Group):
        for at, inner in enumerate(node.nodes):
            if isinstance(inner, Token) and inner.text == ":" and at > 0:
                return [name.text for name in node.nodes[:at]], node.nodes[at + 1 :]
            if not is_name(inner):
                return None
    return None


class Walk:
    """The mentions of a term in order: `free`, a name that is bound nowhere in it; `bound`, a variable by its number; `mark`,
    anything else. A binder `(x y : T) →` comes as `T → T →`."""

    def __init__(self, file):
        self.file, self.count = file, 0

    def bind(self, env, names):
        for name in names:
            self.count += 1
            env[name] = self.count

    def term(self, nodes, outer):
        env, waiting, at = dict(outer), [], 0
        while at < len(nodes):
            node = nodes[at]
            if isinstance(node, Group):
                yield from self.group(node, env)
                bound = binder(node)
                if bound:
                    self.bind(env, bound[0])
                    if at + 1 < len(nodes) and nodes[at + 1].text == "→":
                        at += 1
            elif node.text == "λ":
                at = yield from self.function(nodes, at, env)
            elif node.text == "let":
                at = yield from self.binding(nodes, at, waiting)
            elif node.text == "in" and waiting:
                self.bind(env, waiting.pop())
                yield "mark", "in"
            elif node.text == ".":
                at += 1
                yield "mark", "." + "".join(token.text for token in nodes[at : at + 1] if isinstance(token, Token))
            else:
                if node.text in ",;|":
                    env = dict(outer)
                at = yield from self.name(nodes, at, env)
            at += 1

    def group(self, node, env):
        bound = binder(node)
        if bound:
            for _ in bound[0]:
                yield from self.term(bound[1], env)
                yield "mark", "→"
            return
        yield "mark", node.text
        labelled = len(node.nodes) > 1 and is_name(node.nodes[0]) and getattr(node.nodes[1], "text", "") in ("=", ":")
        if node.text == "{" and labelled:
            yield from self.fields(node.nodes, env)
        else:
            yield from self.term(node.nodes, env)
        yield "mark", CLOSING[node.text]

    def fields(self, nodes, outer):
        """`{x = e}`, or a record's fields, of which one that has a type is known in the next."""
        env, start = dict(outer), 0
        ends = [at for at, node in enumerate(nodes) if isinstance(node, Token) and node.text == ";"] + [len(nodes)]
        for end in ends:
            field = nodes[start:end]
            start = end + 1
            if len(field) < 2:
                continue
            yield "mark", ";" + field[0].text + field[1].text
            yield from self.term(field[2:], env)
            if field[1].text == ":":
                self.bind(env, [field[0].text])

    def function(self, nodes, at, env):
        while at + 1 < len(nodes) and nodes[at + 1].text != ".":
            at += 1
            bound = binder(nodes[at])
            if bound:
                yield from self.group(nodes[at], env)
            else:
                yield "mark", "λ"
            self.bind(env, bound[0] if bound else [leaf.text for leaf in leaves([nodes[at]]) if is_name(leaf)])
        return at + 1

    def binding(self, nodes, at, waiting):
        """Up to the colon or the equals sign of a `let`; its names are known after its `in`."""
        names = []
        while at + 1 < len(nodes) and nodes[at + 1].text not in (":", "="):
            at += 1
            names += [leaf.text for leaf in leaves([nodes[at]]) if is_name(leaf)]
        waiting.append(names)
        yield "mark", "let"
        return at

    def name(self, nodes, at, env):
        text = nodes[at].text
        if text in env:
            yield "bound", env[text]
        elif text in self.file.modules:
            path = [text]
            while at + 2 < len(nodes) and nodes[at + 1].text == "." and nodes[at + 1].glued and is_name(nodes[at + 2]):
                path.append(nodes[at + 2].text)
                at += 2
            yield "free", ".".join(path)
        else:
            yield ("free" if is_name(nodes[at]) else "mark"), text
        return at

    def clause(self, tokens, outer):
        """`f pattern .. = body where helpers`"""
        equals = index_of(tokens, "=")
        if equals is None:
            yield from self.term(tree(tokens), outer)
            return
        env = dict(outer)
        yield from self.pattern(tree(tokens[1:equals]), env)
        yield "mark", "="
        body = tokens[equals + 1 :]
        where = index_of(body, "where")
        helpers = list(items(body[where + 1 :])) if where is not None else []
        self.bind(env, [item[0].text for item in helpers if is_signature(item)])
        yield from self.term(tree(body[:where]), env)
        for item in helpers:
            if is_signature(item):
                yield from self.term(tree(item[index_of(item, ":") + 1 :]), env)
            else:
                yield from self.clause(item, env)

    def pattern(self, nodes, env):
        behind = 0
        for at, node in enumerate(nodes):
            after = nodes[at + 1].text if at + 1 < len(nodes) else ""
            if behind:
                behind -= 1
            elif isinstance(node, Group):
                yield "mark", node.text
                yield from self.pattern(node.nodes, env)
                yield "mark", CLOSING[node.text]
            elif after == ".":
                behind = 2  # `Type.constructor`
                yield "free", node.text
            elif self.file.is_constructor(node.text):
                yield "free", node.text
            elif not is_name(node) or node.text == "_" or node.text.isdigit():
                yield "mark", node.text
            elif after == "=":
                yield "mark", node.text
            else:
                self.bind(env, [node.text])
                yield "bound", self.count


def is_signature(item):
    """`name : type`, perhaps with levels after the name, and no clause."""
    at = index_of(item, ":", "=", ".")
    return at is not None and item[at].text == ":" and at > 0


class Definition:
    """`kind` is record, data, abbrev, unfoldable or lemma; `sections` are the parameters of the modules around it."""

    def __init__(self, file, name, line, kind, sections):
        self.file, self.name, self.line, self.kind, self.sections = file, name, line, kind, sections
        self.type, self.clauses, self.members, self.unfolds, self.spelt, self.public = [], [], [], [], None, False

    def __str__(self):
        return f"{self.file.crate}:{self.file.module}.{self.name}"

    def parameters(self):
        for section in self.sections:
            for node in tree(section):
                names, typed = binder(node) or ([], [])
                yield from ((name, typed) for name in names)

    def tokens(self):
        """All of it, but for the sections."""
        parts = [self.type, *self.clauses, *(member for _, member in self.members), self.unfolds]
        return [token for part in parts for token in part]

    def spelling(self):
        """All its words, sections and names of fields included."""
        members = [name for name, _ in self.members]
        return members + [token.text for part in [*self.sections, self.tokens()] for token in part]

    def words(self):
        if self.spelt is None:
            self.spelt = {token.text for token in self.tokens()}
        return self.spelt

    def stated(self):
        """The parameters that its type names, and those that their types name."""
        return self.closed({token.text for token in self.type})

    def needed(self):
        """The parameters that its type or its proof needs, be it by another definition of the section."""
        reached, waiting = {self}, [self]
        while waiting:
            for name in waiting.pop().words() & self.file.definitions.keys():
                other = self.file.definitions[name]
                if other not in reached and any(one is two for one in self.sections for two in other.sections):
                    reached.add(other)
                    waiting.append(other)
        return self.closed(set().union(*(other.words() for other in reached)))

    def closed(self, said):
        for name, typed in reversed(list(self.parameters())):
            if name in said:
                said |= {leaf.text for leaf in leaves(typed)}
        return said

    def statement(self, wanted=None):
        """What is assumed, each as the number of the variable that stands for it and the mentions in it, and what follows. Of
        the sections' parameters those that are wanted."""
        walk, env, assumed = Walk(self.file), {}, []
        given, result = telescope(tree(self.type))
        outer = [(name, typed, wanted is None or name in wanted) for name, typed in self.parameters()]
        for name, typed, kept in outer + [(name, typed, True) for name, typed in given]:
            mentioned = list(walk.term(typed, env))
            walk.bind(env, [name])
            if kept:
                assumed.append((walk.count, mentioned))
        return assumed, list(walk.term(result, env))

    def body(self):
        """The mentions in its clauses, or in its fields or constructors."""
        walk, env = Walk(self.file), {}
        outer = list(self.parameters()) + (telescope(tree(self.type))[0] if self.members else [])
        walk.bind(env, [name for name, _ in outer])
        for clause in self.clauses:
            yield "mark", "clause"
            yield from walk.clause(clause, env)
        for name, member in self.members:
            yield "mark", name
            yield from walk.term(tree(member), env)
            if self.kind == "record":
                walk.bind(env, [name])

    def mentions(self):
        assumed, result = self.statement()
        parts = [*(part for _, part in assumed), result, self.body()]
        return {text for part in parts for kind, text in part if kind == "free"} | {token.text for token in self.unfolds}


def telescope(nodes):
    """Of a type what it takes, as names and types, and what it gives. A record's header is read so, too."""
    given, start = [], 0
    for at, node in enumerate(nodes):
        if node.text in ("let", "λ"):
            break
        if node.text in ("→", ":"):
            part = nodes[start:at]
            bound = [binder(inner) for inner in part]
            given += [(name, typed) for names, typed in bound for name in names] if all(bound) else [(None, part)]
            start = at + 1
    return given, nodes[start:]


class File:
    """An .antt file: `crate`, `module` as `specs.Graph`, the `function` whose proof it is, `imports`, `modules` under their local names, `definitions`, and in `loose`
    the tokens that are no definition's."""

    def __init__(self, path, text):
        parts = path[:-5].split("/")
        self.path, self.crate, self.module = path, parts[1], ".".join(parts[2:])
        self.function = ".".join(parts[3:-1]) if parts[-1] in PROOF else None
        self.imports, self.modules, self.definitions, self.passed = [], {}, {}, {}
        self.constructors, self.scope, self.outside, self.lines, self.loose = {}, {}, set(), set(), []
        self.text, self.tokens = text.split("\n"), tokens_of(text)
        self.block(self.tokens, [])

    def block(self, tokens, sections):
        last = None
        for item in items(tokens):
            marks = [token.text for token in itertools.takewhile(lambda token: token.text in MARKS, item)]
            rest = item[len(marks) :]
            head = rest[0].text if rest else ""
            if head in ("use", "module", "mutual"):
                last = self.header(head, rest, marks, sections)
            elif head == "mod":
                last = None
            elif head in ("record", "data"):
                last = self.declared(head, rest, sections)
            elif is_signature(rest):
                last = self.signed(rest, marks, sections)
            elif not last or head in ("open", "ruleset", "infix", "infixl", "infixr"):
                self.loose += item
            elif head == "unfolding":
                last.unfolds += rest[1:]
            else:
                last.clauses.append(item)

    def header(self, head, rest, marks, sections):
        where = index_of(rest, "where")
        if head == "use":
            self.imported(rest, "pub" in marks)
        elif head == "mutual":
            self.block(rest[1:], sections)
        elif where is not None:
            self.block(rest[where + 1 :], sections + [rest[2:where]])

    def define(self, name, line, kind, sections):
        made = Definition(self, name, line, kind, sections)
        self.definitions[name] = made
        return made

    def signed(self, rest, marks, sections):
        kind = next((mark for mark in marks if mark in ("abbrev", "unfoldable")), "lemma")
        made = self.define(rest[0].text, rest[0].line, kind, sections)
        made.type, made.public = rest[index_of(rest, ":") + 1 :], "pub" in marks
        return made

    def declared(self, kind, rest, sections):
        made = self.define(rest[1].text, rest[1].line, kind, sections)
        where = index_of(rest, "where")
        made.type = rest[2:where]
        for item in items(rest[where + 1 :]) if where is not None else []:
            colon = index_of(item, ":")
            names = [token.text for token in item[:colon] if token.text not in MARKS] if colon is not None else []
            for name in names:
                made.members.append((name, item[colon + 1 :]))
                if kind == "data":
                    self.constructors[name] = made
        return made

    def imported(self, rest, passed):
        """`use M.{a, b as c}`, or `use M as x`; what is passed on by `pub use` counts as used."""
        self.lines.update(token.line for token in rest)
        text = " ".join(token.text for token in rest[1:]).replace(" . ", ".").replace(".{ ", ".{")
        line = None if passed else rest[0].line
        path, _, names = text.partition(".{")
        if not names:
            path, _, local = path.partition(" as ")
            local = local or path.rpartition(".")[2]
            self.modules[local] = path
            self.imports.append(Import(local, path, None, line))
        for item in names.rstrip(" }").split(",") if names else []:
            name, _, local = item.strip().partition(" as ")
            module, _, name = f"{path}.{name}".rpartition(".")
            self.imports.append(Import(local or name, module, name, line))
            if passed:
                self.passed[local or name] = module, name

    def is_constructor(self, name):
        """A name from elsewhere that stands in a pattern is taken for one."""
        brought = self.scope.get(name)
        return name in self.constructors or name in self.outside or brought and brought.kind == "data" and brought.name != name

    def comment(self, line):
        """The comment above a line."""
        above = itertools.takewhile(lambda text: text.lstrip().startswith("--"), reversed(self.text[: line - 1]))
        return "\n".join(above)

    def said(self):
        """The words of the file but for its `use` lines and the fields behind a dot."""
        pairs = zip([None, *self.tokens], self.tokens)
        return {token.text for before, token in pairs if token.line not in self.lines and not (token.glued and before.text == ".")}

    def elsewhere(self, text):
        """A name that none of the files has; one that is generated is named by its module."""
        head, dot, rest = text.partition(".")
        if dot and self.modules.get(head, "").startswith("Rattle."):
            return f"{self.modules[head]}.{rest}"
        generated = (brought for brought in self.imports if brought.local == text and brought.module.startswith("Rattle."))
        return next((f"{brought.module}.{brought.name}" for brought in generated), text)


def parts_of(name):
    """An operator's parts, by which it is mentioned as well as by its name."""
    return [part for part in name.split("◌") if part] if "◌" in name else []


class Crates:
    """All .antt files, with what each name in them stands for."""

    def __init__(self, texts):
        self.files = {}
        for path, text in texts.items():
            file = File(path, text)
            self.files[file.crate, file.module] = file
        for file in self.files.values():
            self.resolve(file)

    def find(self, module, name):
        """The definition that a path stands for; None where it is not of these files."""
        path = PATH.fullmatch(module)
        file = self.files.get(path.groups()) if path else None
        if file is None:
            return None
        if name in file.passed:
            return self.find(*file.passed[name])
        return file.definitions.get(name) or file.constructors.get(name)

    def resolve(self, file):
        file.scope = dict(file.constructors)
        for brought in file.imports:
            found = self.find(brought.module, brought.name) if brought.name else None
            if found:
                file.scope[brought.local] = found
            elif brought.name:
                file.outside.add(brought.local)
        file.scope.update(file.definitions)
        for name in list(file.scope):
            for part in parts_of(name):
                file.scope.setdefault(part, file.scope[name])

    def meaning(self, file, text):
        if text in file.scope:
            return file.scope[text]
        alias, _, name = text.rpartition(".")
        head, _, below = alias.partition(".")
        if head in file.modules and name:
            return self.find(file.modules[head] + ("." + below if below else ""), name)
        return None


def read(*patterns):
    paths = [path for pattern in patterns for path in sorted(glob.glob(pattern, recursive=True))]
    return {path: open(path, encoding="utf-8").read() for path in paths}
