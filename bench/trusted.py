#!/usr/bin/env python3
"""Walks what contracts read: the definitions of specs/ that the words of a clause lead to, word by word.

usage: bench/trusted.py [run] [--list | --update PAGE | --check PAGE]
       bench/trusted.py private [--map]

run: the definitions that the clauses of the top call `run` of atspi_run read, and those that these read, and so on, as
a table of files, the lowest crate first, with the number of definitions and of their lines, comments above them
included. --list: each definition in place of the table. --update writes the table into a page, between the lines
`<!-- definitions: begin -->` and `<!-- definitions: end -->`. --check says where the page has another one, and ends
with status 1 there.

private: of each library crate the spec files, or the definitions in them, that no public contract of any library crate
reads; of files in a folder `inner` those that one does read. A public contract: the clauses of a `pub fn` that is
reached from its crate's root by `pub mod` and `pub use`, of a public type's methods and impls, and of a public trait.
--map: a line `CRATE OLD NEW` for each file of which none is read, with the module that it would be in a folder `inner`.

A definition reads each word of its type and its body that its file imports or defines. `run` leaves out words that a
pattern or a binder binds there; `private` counts those too, so that it never calls unread what is read. A Rust type
reads its fields' types and its `impl Model`; a trait reads its ghost members, and what impls give them in the crates
below. Words of the kit end the walk, and are counted apart.
"""
import difflib
import functools
import pathlib
import re
import sys

HOME = pathlib.Path(__file__).resolve().parent.parent
BEGIN, END = "<!-- definitions: begin -->", "<!-- definitions: end -->"
NO_LIBRARY = re.compile(r"_(tests|cases|examples)$")
LETTERS = r'[^\s(){}\[\],;."⟨⟩]+'
WORD = re.compile(rf"(?:(?<=[)}}\]])\.)?{LETTERS}(?:\.{LETTERS})*")
USE = re.compile(r"^[ \t]*(pub )?(?:ghost )?use (Rattle\.[\w.\-]*[\w\-])(?:\.\{([^}]*)\}| as ([^\s;]+))?", re.M)
MODIFIERS = {"abbrev", "pub", "unfoldable", "record", "data", "opaque", "private"}


# ------------------------------------------------------------------------------------------------ definitions of specs/

def bare(text):
    """The text of an antt file or a clause without its strings and comments."""
    return re.sub(r'"(?:\\.|[^"\\])*"|--[^\n]*', lambda m: '""' if m[0][0] == '"' else "", text)


class Scope:
    """What the words of a file mean: its imports, and the modules that it gives another name."""

    def __init__(self, text):
        self.words, self.modules, self.handed_on, self.mixed = {}, {}, {}, {}
        for public, module, words, alias in USE.findall(text):
            if not words:
                self.modules[alias or module.rsplit(".", 1)[1]] = module
            for word in filter(None, (w.strip() for w in words.split(","))):
                name, _, as_name = word.partition(" as ")
                self.words[as_name or name] = (module, name)
                if public:
                    self.handed_on[as_name or name] = (module, name)
        for name in self.words:
            self.mix(name)

    def mix(self, name):
        """The parts of an operator stand for it."""
        if "◌" in name:
            for part in filter(None, name.split("◌")):
                self.mixed.setdefault(part, set()).add(name)


class Definition:
    """A definition of a spec file: its own name, its constructors or fields, its lines, and the text that it reads."""

    def __init__(self, file, name, kind, indent):
        self.file, self.name, self.kind, self.indent = file, name, kind, indent
        self.lines, self.inner, self.above = [], [], 0

    @functools.cached_property
    def text(self):
        return bare("\n".join(self.lines[self.above:]))

    def names(self):
        return [self.name] + self.inner

    def take(self, line):
        self.lines.append(line)
        part = re.match(r"(\s+)(?:pub )?((?:[^\s(){}:]+ )+): ", line + " ")
        if part and self.kind in ("record", "data") and len(part[1]) == self.indent + 2:
            self.inner += part[2].split()


    def segments(self):
        """The head, the equations and the fields: each with the names in its patterns, those that its other binders
        bind, and its text without the names of fields."""
        groups, at = [], (self.indent, self.indent + 2) if self.kind == "record" else (self.indent,)
        for line in self.text.split("\n"):
            if not groups or len(line) - len(line.lstrip()) in at and line.strip() not in ("", "where", "}"):
                groups.append([])
            groups[-1].append(line)
        fields = set()
        for number, text in enumerate(map("\n".join, groups)):
            binders = bound(text) | fields | (bound("\n".join(groups[0])) if self.kind == "record" else set())
            patterns = set(WORD.findall(text.split(" =")[0])) if number and self.kind == "word" else set()
            if number and self.kind == "record":
                names, _, text = text.partition(" : ")
                fields |= set(names.split()) - {"pub"}
            yield patterns, binders, text


def bound(text):
    """The names that binders bind: typed arguments, those of a `λ` and a `let`, and words behind a `where`."""
    found = re.findall(r"[({]((?:[^\s(){}\[\],;.\":=]+\s+)+):\s", text) + re.findall(r"λ\s+([^.(]*)\.\s", text)
    found += re.findall(r"\blet\s+(\S+)\s", text) + re.findall(r"\n\s+(\S+) : ", text)
    return {name for names in found for name in names.split()}


class SpecFile:
    """A file of specs/, as its definitions."""

    def __init__(self, path):
        self.path, self.crate = path, path.relative_to(HOME / "crates").parts[0]
        text = path.read_text()
        self.scope, self.definitions, self.own = Scope(text), [], {}
        self.split(text)
        for definition in self.definitions:
            for name in definition.names():
                self.own.setdefault(name, definition)
            self.scope.mix(definition.name)

    def split(self, text):
        above, block, now = [], False, None
        for line in text.split("\n"):
            indent, words = len(line) - len(line.lstrip()), line.split()
            if not words:
                above = []
            elif indent not in ((0, 2) if block else (0,)):
                if now:
                    now.take(line)
            elif words[0].startswith("--") or words[0].startswith("infix"):
                above.append(line)
            elif words[0] in ("use", "mod") or words[:2] in (["pub", "use"], ["pub", "mod"]):
                above, now = [], None
            elif words[0] in ("mutual", "module") or words[:2] == ["abbrev", "mutual"]:
                above.append(line)
                block, now = True, None
            else:
                block = block and indent == 2
                begun = self.begun(words, indent)
                now = begun or now
                for taken in above + [line]:
                    now.take(taken)
                now.above = len(above) if begun else now.above
                above = []

    def begun(self, words, indent):
        """The definition that a line begins; none where it goes on with the one before."""
        at = 0
        while at < len(words) and words[at] in MODIFIERS:
            at += 1
        if at == 0 and words[1:2] != [":"] or at >= len(words):
            return None
        kind = next((w for w in words[:at] if w in ("record", "data")), "word")
        self.definitions.append(Definition(self, words[at], kind, indent))
        return self.definitions[-1]

    def module(self):
        return ".".join(self.path.relative_to(HOME / "crates" / self.crate / "specs").with_suffix("").parts)


@functools.cache
def spec_file(path):
    return SpecFile(path)


@functools.cache
def crates():
    """Each crate with its libraries, the lowest first."""
    lines = (HOME / "crates.txt").read_text().split("\n")
    lines = [line.split("#")[0].split(":") for line in lines if line.split("#")[0].strip()]
    return {line[0].split()[0]: line[1].split() if len(line) > 1 else [] for line in lines}


# ------------------------------------------------------------------------------------------------ Rust's items

def plain(text):
    """Rattle's text without comments and characters, and with empty strings."""
    pattern = r"""b?"(?:\\[\s\S]|[^"\\])*"|//[^\n]*|b?'(?:\\u\{[^}]*\}|\\.[0-9a-f]*|[^\\'\n])'"""
    return re.sub(pattern, lambda m: '""' if '"' in m[0][:2] else ("" if m[0][0] == "/" else "0"), text)


def closed(text, at):
    """The place behind the bracket that closes the one here."""
    depth = 0
    for m in re.compile(r"[(){}\[\]]").finditer(text, at):
        depth += 1 if m[0] in "({[" else -1
        if depth == 0:
            return m.end()
    return len(text)


class Item:
    """An item: its head without clauses, its clauses or ghost line (the texts in braces), and its body's place."""

    def __init__(self, head, clauses, body):
        self.tested = bool(re.search(r"#\[(test\]|cfg\(test\))", head))
        while m := re.match(r"\s*#!?\[", head):
            head = head[closed(head, m.end() - 1):]
        self.head, self.clauses, self.body = head.strip(), clauses, body
        kinds = "fn|struct|enum|trait|mod|impl|use|type|const|ghost"
        m = re.match(rf"(pub(?:\([^)]*\))?\s+)?(?:(?:unsafe|const) )*({kinds})\b\s*(\w*)", self.head)
        self.kind, self.name = (m[2], m[3]) if m else ("", "")
        self.public = bool(m and (m[1] or "").strip() == "pub")


CLAUSE = re.compile(r"(?:ensures|requires)\*?(?:\s+\*?\w+)?\s*$")
GHOST = re.compile(r"\bghost\s+\w+\s*[:=]\s*$")
LINE = re.compile(r"(?:\s|#\[[^\]]*\])*(?:pub(?:\([^)]*\))?\s+)?(?:ghost )?(use|const|static|type)\b(?!\s+fn)")


def items(text, at, end, separators=";"):
    """The items of a file, of an impl or of a trait."""
    stop, head, clauses = re.compile(r"[({\[" + separators + "]"), "", []
    while m := stop.search(text, at, end):
        head += text[at:m.start()]
        at = m.end()
        if m[0] in separators:
            yield Item(head, clauses, None)
            head, clauses = "", []
            continue
        at = closed(text, m.start())
        inner = text[m.end():at - 1]
        if m[0] != "{":
            head += m[0] + inner + text[at - 1]
        elif CLAUSE.search(head):
            clauses.append(inner)
            head = CLAUSE.sub("", head)
        elif GHOST.search(head) or LINE.match(head):
            if GHOST.search(head):
                clauses.append(inner)
            head += "{" + inner + "}"
        else:
            yield Item(head, clauses, (m.end(), at - 1))
            head, clauses = "", []


def used(tree):
    """The names that a `use` brings, each with its path."""
    tree = tree.strip()
    m = re.match(r"((?:\w+::)*)\{", tree)
    if m:
        inner, depth, parts = tree[m.end():closed(tree, m.end() - 1) - 1], 0, [""]
        for c in inner:
            depth += (c == "{") - (c == "}")
            if c == "," and depth == 0:
                parts.append("")
            else:
                parts[-1] += c
        for part in filter(None, (p.strip() for p in parts)):
            for name, path in used(part):
                path = m[1].split("::")[:-1] + path
                path = path[:-1] if path[-1] == "self" else path
                yield path[-1] if name == "self" else name, path
    else:
        path, _, name = tree.partition(" as ")
        path = path.strip().split("::")
        yield name.strip() or path[-1], path


class Type:
    """A struct, an enum or a trait: its file, the texts that name its types, and its ghost lines with their files."""

    def __init__(self, file, item):
        self.file, self.name, self.kind, self.public = file, item.name, item.kind, item.public
        self.crate = file.crate
        self.types = [(file, item.head)]
        self.ghosts = [(file, clause) for clause in item.clauses]
        self.methods = []


class RustFile:
    """A file of src/: its types, its functions and its impls."""

    def __init__(self, crate, path):
        self.crate = crate
        parts = path.relative_to(crate.folder / "src").with_suffix("").parts
        self.module = () if parts in (("lib",), ("main",)) else parts
        text = path.read_text()
        self.text = plain(text)
        self.scope = Scope(self.text)
        self.uses, self.public_uses, self.modules, self.tested = {}, {}, {}, set()
        self.functions, self.impls, self.types = [], [], {}
        for item in items(self.text, 0, len(self.text)):
            self.take(item)

    def take(self, item):
        if item.kind == "mod":
            if item.tested:
                self.tested.add(item.name)
            else:
                self.modules[item.name] = item.public
        elif item.kind == "use":
            names = dict(used(re.sub(r"^(pub(\([^)]*\))?\s+)?use\s+", "", item.head)))
            self.uses.update(names)
            if item.public:
                self.public_uses.update(names)
        elif item.kind == "fn" and not item.tested:
            self.functions.append(item)
        elif item.kind == "impl":
            self.impls.append((item, list(items(self.text, *item.body))))
        elif item.kind in ("struct", "enum", "trait"):
            self.types[item.name] = self.type_of(item)

    def type_of(self, item):
        made, body = Type(self, item), self.text[slice(*item.body)] if item.body else ""
        if item.kind == "trait":
            for inner in items(self.text, *item.body):
                if inner.kind == "ghost":
                    made.ghosts += [(self, clause) for clause in inner.clauses]
                else:
                    made.methods.append(inner)
            return made
        while m := re.search(r"\bghost\s+\w+\s*:\s*\{", body):
            end = closed(body, m.end() - 1)
            made.ghosts.append((self, body[m.end():end - 1]))
            body = body[:m.start()] + body[end:]
        if item.kind == "enum":
            body = re.sub(r"(^|,)(\s*(#\[[^\]]*\])?)*\w+", r"\1", flat(body))
        made.types.append((self, body))
        return made


def flat(body):
    """The body of an enum with its attributes left out and commas inside brackets made blanks."""
    out, depth = "", 0
    for c in re.sub(r"#\[[^\]]*\]", "", body):
        depth += (c in "({[<") - (c in ")}]>")
        out += " " if c == "," and depth else c
    return out


class Crate:
    """A crate of the repository."""

    def __init__(self, name):
        self.name, self.folder = name, HOME / "crates" / name
        self.files = [RustFile(self, path) for path in sorted((self.folder / "src").rglob("*.rt"))]
        by_module = {file.module: file for file in self.files}
        tested = {file.module + (name,) for file in self.files for name in file.tested}
        self.files = [f for f in self.files if not any(f.module[:len(t)] == t for t in tested)]
        self.by_module = {m: f for m, f in by_module.items() if f in self.files}
        self.types = {}
        for file in self.files:
            for made in file.types.values():
                self.types.setdefault(made.name, []).append(made)

    def named(self, name, module=None, seen=()):
        """The types of a name in the crate, or in those from which it hands it on."""
        found = self.types.get(name, [])
        exact = [t for t in found if t.file.module == module]
        if exact or found or self.name in seen:
            return exact or found
        for file in self.files:
            path = file.public_uses.get(name)
            if path and path[0] in crates() and path[0] != self.name:
                return crate(path[0]).named(path[-1], None, seen + (self.name,))
        return []


@functools.cache
def crate(name):
    return Crate(name)


@functools.cache
def types_in(file, text):
    """The types of the repository that a text of Rust names."""
    found = []
    for chain in re.findall(r"(?:\w+::)*[A-Z]\w*", text):
        path = chain.split("::")
        path = file.uses.get(path[0], path[:1]) + path[1:]
        name = path[-1]
        if path[0] in crates():
            found += crate(path[0]).named(name, tuple(path[1:-1]))
        elif name in file.types:
            found.append(file.types[name])
        elif len(path) > 1 and path[0] in ("crate", "super", "self") or path[0] in file.modules:
            found += file.crate.named(name, tuple(path[1:-1]))
    return found


# ------------------------------------------------------------------------------------------------ reading

class Walk:
    """What is read from some clauses on: definitions, Rust's types, and words of the kit. `lower`: the crates whose
    impls count. `exact`: a word that a pattern or a binder binds is not the definition of that name."""

    def __init__(self, lower, exact):
        self.lower, self.exact, self.seen, self.kit, self.waiting = lower, exact, set(), set(), []
        self.impls()

    def impls(self):
        """The ghost lines of impls go to the types and the traits that they are of."""
        self.models, self.given = {}, {}
        for name in crates():
            if name not in self.lower:
                continue
            for file in crate(name).files:
                for item, inner in file.impls:
                    trait, type_head = impl_parts(item.head)
                    if not trait:
                        continue
                    ghosts = [(file, c) for i in inner if i.kind == "ghost" for c in i.clauses]
                    for made in types_in(file, type_head)[:1] if trait == "Model" else ():
                        self.models.setdefault(made, []).extend(ghosts)
                    for made in types_in(file, trait)[:1]:
                        self.given.setdefault(made, []).extend(ghosts)

    def read(self, node):
        if node not in self.seen:
            self.seen.add(node)
            self.waiting.append(node)

    def run(self):
        while self.waiting:
            node = self.waiting.pop()
            if isinstance(node, Definition) and self.exact:
                for patterns, binders, text in node.segments():
                    variables = {name for name in patterns if not self.constructs(node.file, name)}
                    self.words(node.file.scope, text, node.file, variables | binders)
            elif isinstance(node, Definition):
                self.words(node.file.scope, node.text, node.file)
            else:
                for file, text in node.types:
                    self.rust(file, text)
                for file, text in node.ghosts + self.models.get(node, []) + self.given.get(node, []):
                    self.words(file.scope, text, file)

    def rust(self, file, text):
        for made in types_in(file, text):
            self.read(made)

    def constructs(self, file, name):
        """Whether a name in a pattern is a constructor there."""
        if name in file.own:
            return file.own[name].kind == "data"
        module, word = file.scope.words.get(name, ("", ""))
        parts = module.split(".")
        if len(parts) < 4 or parts[1] not in crates() or parts[3] == "declared":
            return bool(module)
        path = HOME / "crates" / parts[1] / "specs" / ("/".join(parts[3:]) + ".antt")
        made = spec_file(path).own.get(word) if path.exists() else None
        return not made or made.kind == "data"

    def words(self, scope, text, file, bound_here=frozenset()):
        """Reads the words of a text that its file brings or defines."""
        own = file.own if isinstance(file, SpecFile) else {}
        text = bare(text)
        if self.exact:
            text = re.sub(r"([{;]\s*)[^\s{};=]+(\s*=\s)", r"\1\2", text)
        for chain in set(WORD.findall(text)):
            head, _, rest = chain.partition(".")
            if head in bound_here:
                continue
            names = scope.mixed.get(head, set()) | {head}
            for name in names:
                if name in own:
                    self.read(own[name])
                if name in scope.words:
                    self.resolve(*scope.words[name])
            if head in scope.modules and rest:
                self.resolve(scope.modules[head], rest.split(".")[0])
            if not isinstance(file, SpecFile):
                self.rust(file, re.sub(r"-\w+$", "", head))

    def resolve(self, module, word):
        _, name, folder, *path = module.split(".") + [""] * (3 - len(module.split(".")))
        if name not in crates():
            self.kit.add((module, word))
        elif folder != "specs":
            raise SystemExit(f"a contract reads {module}.{word}")
        elif path[0] in ("declared", "contracts"):
            self.declared(name, path[1:], word)
        else:
            self.specs(name, path, word)

    def declared(self, name, path, word):
        """A type of Rust's, one of its variants, or a constant, which is read as a number."""
        if path[-1] == "TheConstants":
            return
        if path[-1] in ("TheVariants", "TheOpen"):
            path = path[:-1] + ([word.removesuffix("-F")] if path[-1] == "TheOpen" else [])
        found = crate(name).named(path[-1], tuple(path[:-1]))
        if not found:
            raise SystemExit(f"no type {'.'.join(path)} in {name}")
        for made in found:
            self.read(made)

    def specs(self, name, path, word):
        file = HOME / "crates" / name / "specs" / ("/".join(path) + ".antt")
        if not file.exists():
            path, file = path[:-1], file.parent.with_suffix(".antt")
        spec = spec_file(file)
        mixed = spec.scope.mixed.get(word, set()) | {word}
        for each in mixed:
            if each in spec.own:
                return self.read(spec.own[each])
        if word in spec.scope.handed_on:
            return self.resolve(*spec.scope.handed_on[word])
        raise SystemExit(f"no word {word} in {file}")


def impl_parts(head):
    """The trait's text and the type's text of an impl; no trait of an impl of a type's own methods."""
    head = re.sub(r"^(unsafe )?impl\s*", "", head)
    if head.startswith("<"):
        depth = 0
        for at, c in enumerate(head):
            depth += (c == "<") - (c == ">" and head[at - 1] not in "-=")
            if depth == 0:
                break
        head = head[at + 1:]
    head = head.split(" where ")[0]
    trait, split, made = head.rpartition(" for ")
    return (trait.strip(), made.strip()) if split else ("", head.strip())


def below(name, seen=None):
    """A crate and all crates that it uses."""
    seen = set() if seen is None else seen
    if name in crates() and name not in seen:
        seen.add(name)
        for other in crates()[name]:
            below(other, seen)
    return seen


def top_walk():
    """What the clauses of the top call read."""
    walk = Walk(below("atspi_run"), exact=True)
    for file in crate("atspi_run").files:
        for item in file.functions:
            if item.public and item.name == "run":
                contract(walk, file, item)
    walk.run()
    return walk


def contract(walk, file, item, generics=""):
    """Reads the clauses of a function, and the types and the traits of its head."""
    walk.rust(file, item.head + " " + generics)
    parameters = set(re.findall(r"[(,]\s*(?:mut )?(\w+):(?!:)", item.head)) | {"self", "result"}
    for clause in item.clauses:
        walk.words(file.scope, clause, file, bound(clause) | parameters if walk.exact else frozenset())


# ------------------------------------------------------------------------------------------------ what is public

class Public:
    """The public functions, types and traits of a crate: `pub` on the way from its root, or handed on there."""

    def __init__(self, made):
        self.crate, self.items, self.modules = made, set(), set()
        self.module(())

    def module(self, at):
        file = self.crate.by_module.get(at)
        if at in self.modules or not file:
            return
        self.modules.add(at)
        for item in file.functions:
            if item.public or item.name == "main":
                self.items.add((at, item.name))
        self.items |= {(at, made.name) for made in file.types.values() if made.public}
        for name, public in file.modules.items():
            if public:
                self.module(at + (name,))
        for path in file.public_uses.values():
            self.handed_on(at, path)

    def place(self, at, path):
        """The module and the name that a path of the crate means in a module."""
        if path[0] == "crate":
            return (), path[1:]
        while path and path[0] in ("self", "super"):
            at, path = at[:-1] if path[0] == "super" else at, path[1:]
        return at, path

    def handed_on(self, at, path, depth=0):
        at, path = self.place(at, path)
        if not path or path[0] in crates() and path[0] != self.crate.name or depth > 20:
            return
        where, name = at + tuple(path[:-1]), path[-1]
        if where + (name,) in self.crate.by_module:
            self.module(where + (name,))
        file = self.crate.by_module.get(where)
        if not file:
            return
        self.items.add((where, name))
        if name == "*":
            self.module(where)
        if name in file.uses and file.uses[name] != path:
            self.handed_on(where, file.uses[name], depth + 1)


def public_types():
    """The types and traits that are public, or that a public function's head, a public type or a public trait names."""
    publics = {name: Public(crate(name)) for name in crates() if not NO_LIBRARY.search(name)}
    found = {made for name in publics for types in crate(name).types.values() for made in types
             if (made.file.module, made.name) in publics[name].items}
    heads = [(file, item.head) for name in publics for file in crate(name).files for item in file.functions
             if (file.module, item.name) in publics[name].items]
    waiting = [made for file, head in heads for made in types_in(file, head)] + list(found)
    methods = {}
    for name in publics:
        for file in crate(name).files:
            for item, inner in file.impls:
                trait, type_head = impl_parts(item.head)
                texts = [(file, i.head) for i in inner if trait or i.public] + [(file, trait)]
                for made in types_in(file, type_head)[:1]:
                    methods.setdefault(made, []).extend(texts)
    seen = set()
    while waiting:
        made = waiting.pop()
        if made in seen:
            continue
        seen.add(made)
        texts = made.types + [(made.file, i.head) for i in made.methods] + methods.get(made, [])
        waiting += [other for file, text in texts for other in types_in(file, text)]
    return publics, seen


def public_walk():
    """What the public contracts of the library crates read."""
    publics, types = public_types()
    walk = Walk(set(publics), exact=False)
    for name, public in publics.items():
        for file in crate(name).files:
            for item in file.functions:
                if (file.module, item.name) in public.items:
                    contract(walk, file, item)
            for item, inner in file.impls:
                trait, type_head = impl_parts(item.head)
                own = types_in(file, type_head)[:1]
                if own and own[0] not in types:
                    continue
                for each in inner:
                    if trait or each.public:
                        contract(walk, file, each, item.head)
    for made in types:
        walk.read(made)
        for item in made.methods:
            contract(walk, made.file, item)
    walk.run()
    return walk


# ------------------------------------------------------------------------------------------------ what is printed

def definitions(walk):
    """What is read, by files, the lowest crate first."""
    order, files = {name: at for at, name in enumerate(crates())}, {}
    for node in walk.seen:
        if isinstance(node, Definition):
            files.setdefault(node.file, []).append(node)
    files = {file: [d for d in file.definitions if d in walk.seen] for file in files}
    return sorted(files.items(), key=lambda pair: (order[pair[0].crate], pair[0].path))


def table(walk):
    rows, count, lines = ["| file | definitions | lines |", "|---|---:|---:|"], 0, 0
    for file, read in definitions(walk):
        length = sum(len(d.lines) for d in read)
        rows.append(f"| {file.path.relative_to(HOME)} | {len(read)} | {length} |")
        count, lines = count + len(read), lines + length
    rust = [node for node in walk.seen if not isinstance(node, Definition)]
    rows.append(f"| **{len(rows) - 2} files** | **{count:,}** | **{lines:,}** |")
    rows += ["", f"Beside these, {len(rust)} types and traits of the code, and {len(walk.kit)} words of the kit's."]
    return rows


def page(path, check):
    """Writes the table into the page, or says where the page has another one."""
    old = path.read_text().split("\n")
    if old.count(BEGIN) != 1 or old.count(END) != 1:
        raise SystemExit(f"{path}: no one line {BEGIN} and one line {END}")
    new = old[:old.index(BEGIN) + 1] + table(top_walk()) + old[old.index(END):]
    if not check:
        path.write_text("\n".join(new))
    elif new != old:
        print("\n".join(difflib.unified_diff(old, new, str(path), "bench/trusted.py run", lineterm="", n=0)))
        raise SystemExit(1)


def private(as_map):
    """What no public contract reads, outside folders `inner`; and what one reads inside them."""
    walk = public_walk()
    for name in crates():
        paths = [] if NO_LIBRARY.search(name) else sorted((HOME / "crates" / name / "specs").rglob("*.antt"))
        for file in map(spec_file, paths):
            *folders, last = file.module().split(".")
            inner, all_names = "inner" in folders, [d.name for d in file.definitions]
            names = [d.name for d in file.definitions if (d in walk.seen) == inner]
            whole = names == all_names
            if as_map and names and whole and not inner:
                print(name, file.module(), ".".join(folders + ["inner", last]))
            elif names and not as_map:
                word = "read" if inner else "unread"
                told = f"all {len(names)} definitions {word}" if whole else \
                    f"{len(names)} of {len(all_names)} {word}: {' '.join(names)}"
                print(f"{name} {'/'.join(folders + [last])}.antt: {told}")


def main(words):
    if words[:1] == ["private"]:
        return private("--map" in words)
    words = words[1:] if words[:1] == ["run"] else words
    if words[:1] in (["--update"], ["--check"]) and len(words) == 2:
        return page(pathlib.Path(words[1]), words[0] == "--check")
    if words == ["--list"]:
        for file, read in definitions(top_walk()):
            for definition in read:
                print(file.path.relative_to(HOME), definition.name, len(definition.lines))
        return None
    if words:
        raise SystemExit(__doc__)
    return print("\n".join(table(top_walk())))


if __name__ == "__main__":
    main(sys.argv[1:])
