"""Reads the sources for docs/api.py: the items of a file, what a crate exports, and the definitions that clauses name.

An item is a struct, an enum, a variant, a trait, a function, a constant, a ghost member or an impl, with the doc comment
above it, its signature, its clauses and the items inside it. Comments, strings and characters are blanked in a copy of
the text of the same length (`blanked`), so that brackets can be counted there."""
import functools
import re
from pathlib import Path

import closure

CRATES = closure.CRATES
BLANK = re.compile(r'//[^\n]*|"(?:\\.|[^"\\])*"|(?<![\w\'])b?\'(?:\\[^\n]{1,9}?|[^\'\\\n])\'', re.DOTALL)
CLAUSE = re.compile(r"\b(ensures|requires)(?:\s+(\w+))?\s*\Z")
KINDS = r"fn|struct|enum|trait|impl|const|static|type|use|mod|ghost"
HEAD = re.compile(rf'(?:pub(?:\([\w ]+\))?\s+)?(?:(?:unsafe|extern\s*(?:"[^"]*"|\s)|const(?=\s+(?:unsafe\s+)?fn))\s*)*\b({KINDS})\b')
# Items that end with a semicolon, whatever brackets come before it.
LONG = ("const", "static", "type", "use", "ghost")
NAME = re.compile(r"[A-Za-z_]\w*")
OPEN, CLOSE = "([{", ")]}"


class Item:
    """What is declared at one place of a file."""

    def __init__(self, kind, name, file, line):
        self.kind, self.name, self.file, self.line = kind, name, file, line
        self.docs, self.attributes, self.clauses, self.inside = [], [], [], []
        self.signature = self.body = ""

    @property
    def is_public(self):
        return self.signature.startswith("pub ")

    @property
    def is_exported_to_c(self):
        return any("no_mangle" in attribute for attribute in self.attributes)


def blanked(text):
    return BLANK.sub(lambda it: re.sub(r"[^\n]", " ", it[0]), text)


def end_of(mask, at):
    """Where the bracket that opens at this place is closed, and one more."""
    depth = 0
    for place in range(at, len(mask)):
        depth += (mask[place] in OPEN) - (mask[place] in CLOSE)
        if depth == 0:
            return place + 1
    return len(mask)


def dedented(text):
    """A piece of a file, whose first line begins in the middle, with the others moved as far to the left."""
    lines = text.strip().splitlines()
    margin = min((len(line) - len(line.lstrip()) for line in lines[1:] if line.strip()), default=0)
    least = [line[margin:].rstrip() for line in lines[1:]]
    return "\n".join([line.rstrip() for line in lines[:1]] + least)


class Reader:
    """The items of a file between two places, one after another."""

    def __init__(self, file, start, end):
        self.file, self.at, self.end = file, start, end
        self.text, self.mask = file.text, file.mask

    def items(self):
        while True:
            item = self.next_item()
            if item is None:
                return
            yield item

    def skip_blanks(self):
        while self.at < self.end and self.mask[self.at].isspace():
            self.at += 1

    def next_item(self):
        begin = self.at
        self.skip_blanks()
        attributes = []
        while self.mask.startswith("#", self.at):
            start = self.at
            self.at = end_of(self.mask, self.mask.index("[", start))
            attributes.append(self.text[start : self.at])
            self.skip_blanks()
        if self.at >= self.end:
            return None
        start = self.at
        found = HEAD.match(self.text, start)
        item = self.keyword_item(found) if found else self.plain_item()
        item.docs = re.findall(r"(?m)^\s*/// ?(.*)$", self.text[begin:start])
        item.attributes = attributes
        return item

    def keyword_item(self, found):
        """A struct, a function and so on: its signature ends with its first clause, its body or a semicolon."""
        kind, start = found[1], self.at
        item = Item(kind, name_of(kind, self.text[found.end() : self.end]), self.file, self.file.line_of(start))
        stop = None
        while self.at < self.end and self.mask[self.at] != ";":
            if self.mask[self.at] not in OPEN:
                self.at += 1
                continue
            close = end_of(self.mask, self.at)
            clause = CLAUSE.search(self.mask, start, self.at) if kind == "fn" and self.mask[self.at] == "{" else None
            if clause:
                stop = stop or clause.start()
                item.clauses.append((clause[1], clause[2] or "", dedented(self.text[self.at + 1 : close - 1])))
            elif self.mask[self.at] == "{" and kind not in LONG:
                self.end_with_body(item, close)
                stop = stop or item.body[0]
                break
            self.at = close
        item.signature = dedented(self.text[start : stop or self.at])
        self.at += item.body == ""
        return item

    def end_with_body(self, item, close):
        item.body = (self.at, close)
        if item.kind in ("trait", "impl", "enum", "struct"):
            item.inside = list(Reader(self.file, self.at + 1, close - 1).items())
        self.at = close

    def plain_item(self):
        """A variant or a field, up to the comma."""
        start = self.at
        while self.at < self.end and self.mask[self.at] not in ",;":
            self.at = end_of(self.mask, self.at) if self.mask[self.at] in OPEN else self.at + 1
        text = dedented(self.text[start : self.at])
        self.at += 1
        name = NAME.search(re.sub(r"^pub(\([\w ]+\))? ", "", text))
        item = Item("part", name[0] if name else "", self.file, self.file.line_of(start))
        item.signature = text
        return item


def name_of(kind, rest):
    """The name of an item: of an impl, the type that it is for, with the trait before it."""
    if kind == "impl":
        head = re.sub(r"\bwhere\b.*", "", rest[: rest.index("{")], flags=re.DOTALL)
        head = re.sub(r"<[^<>]*>", "", re.sub(r"<[^<>]*>", "", re.sub(r"<[^<>]*>", "", head)))
        trait, _, of = head.rpartition(" for ")
        return " for ".join(NAME.findall(part)[-1] if NAME.search(part) else "" for part in (trait, of) if part.strip())
    found = NAME.search(rest)
    return found[0] if found else ""


class SourceFile:
    """A file of code: its items, what it exports, and what its names mean in code and in clauses."""

    def __init__(self, path):
        self.path = path
        self.text = path.read_text(encoding="utf-8")
        self.mask = blanked(self.text)
        self.head = re.findall(r"(?m)^//! ?(.*)$", self.text)
        begin = re.match(r"(?:\s*(?://![^\n]*|#!\[[^\n]*\])\n)*", self.text).end()
        self.items = list(Reader(self, begin, len(self.text)).items())
        self.uses = [use for item in self.items if item.kind == "use" for use in uses_of(item.signature)]
        self.scope = Scope(self)

    @property
    def crate(self):
        return self.path.relative_to(CRATES).parts[0]

    def line_of(self, at):
        return self.text.count("\n", 0, at) + 1


def uses_of(text):
    """The paths that a `use` names: whether it is public, the path, and the name that it has here."""
    is_public = text.startswith("pub ")
    return [(is_public, *one) for one in paths_in(re.sub(r"^(pub(\([\w ]+\))? )?use ", "", text).strip(), [])]


def paths_in(text, before):
    head, brace, rest = text.partition("{")
    if not brace:
        path, _, called = text.strip().partition(" as ")
        parts = before + path.split("::")
        return [(parts, called or parts[-1])] if path else []
    out, depth, piece = [], 0, ""
    for letter in rest.strip()[:-1] + ",":
        depth += (letter == "{") - (letter == "}")
        if letter == "," and depth == 0:
            out += paths_in(piece.strip(), before + [part for part in head.split("::") if part])
            piece = ""
        else:
            piece += letter
    return out


class Scope:
    """What the names in a file's clauses mean, in the form in which closure.py reads a file of definitions."""

    GHOST_USE = re.compile(r"ghost use (\w[\w.]*?)(?:\.\{([^}]*)\})?(?: as (\S+?))?;")

    def __init__(self, file):
        self.file, self.path = file, file.path
        self.lines, self.homes, self.imports, self.aliases = {}, {}, {}, {}
        for source, names, alias in self.GHOST_USE.findall(file.text):
            for part in re.split(r",\s*", names.strip()) if names else []:
                name, _, called = part.partition(" as ")
                self.imports[called or name] = (source, name)
            if alias:
                self.aliases[alias] = source


def declared(scope, name):
    """The type or constant of the code that a name in a clause or a definition means: its crate and its name."""
    first = name.split(".")[0]
    source, what = scope.imports.get(first) or (scope.aliases.get(first, ""), "")
    parts = source.split(".")
    if len(parts) < 5 or parts[2:4] != ["specs", "declared"]:
        return None
    named = [part for part in parts[4:] if part not in ("TheVariants", "TheConstants")]
    last = named[-1] if named[-1:] and named[-1][:1].isupper() else what
    return (parts[1], last) if last else None


@functools.lru_cache(maxsize=None)
def source(path):
    return SourceFile(path)


class Crate:
    """A crate's exports, and the impls of its types."""

    def __init__(self, name):
        self.name = name
        self.src = CRATES / name / "src"
        self.lib = source(self.src / "lib.rt")
        self.files = [source(path) for path in sorted(self.src.glob("**/*.rt")) if "tests" not in path.parts and path.stem != "tests"]

    @functools.cached_property
    def impls(self):
        """The impls of each type, by its name, in the order of files and places."""
        out = {}
        for item in (item for file in self.files for item in file.items if item.kind == "impl"):
            trait, _, of = item.name.rpartition(" for ")
            out.setdefault(of, []).append((trait, item))
        return out

    @functools.cached_property
    def exports(self):
        """What the crate exports, by its name: an item, or the file of a public module."""
        out = {}
        for item in self.lib.items:
            if item.kind == "mod" and item.is_public:
                out[item.name] = self.module([item.name])
            elif item.is_public and item.kind not in ("use", "mod"):
                out[item.name] = item
        for is_public, path, name in self.lib.uses:
            found = self.item_at(path) if is_public else None
            if found:
                out[name] = found
        for file in self.files:
            out.update({item.name: item for item in file.items if item.is_exported_to_c})
        return dict(sorted(out.items()))

    def module(self, parts):
        for at in (self.src.joinpath(*parts).with_suffix(".rt"), self.src.joinpath(*parts, "mod.rt")):
            if at.is_file():
                return source(at)
        return None

    def item_at(self, path):
        """The item that a path of this crate, or of another of these crates, leads to."""
        path = [part for part in path if part not in ("crate", "self")]
        if is_crate(path[0]) and path[0] != self.name:
            return crate(path[0]).exports.get(path[1]) if len(path) == 2 else crate(path[0]).in_module(path[1:])
        return self.in_module(path)

    def in_module(self, path):
        file = self.module(path[:-1]) if path[:-1] else self.lib
        for item in file.items if file else []:
            if item.name == path[-1] and item.kind not in ("impl", "use", "mod"):
                return item
        for _, inner, name in file.uses if file else []:
            if name == path[-1] and inner != path:
                return self.item_at(inner) if is_crate(inner[0]) or inner[0] == "crate" else self.in_module(path[:-1] + inner)
        return None


@functools.lru_cache(maxsize=None)
def crate(name):
    return Crate(name)


def is_crate(name):
    return (CRATES / name / "src" / "lib.rt").is_file()


def families(path):
    """The families of crates.txt: the title of each, and its crates with what is said of each."""
    out, said = [], ""
    for part in path.read_text(encoding="utf-8").split("\n\n")[1:]:
        title, *lines = part.strip().splitlines()
        crates = []
        for line in lines:
            if line.startswith("# "):
                said = line[2:]
            else:
                crates.append((line.split(":")[0].split()[0], said))
        out.append((title[2:].rstrip("."), crates))
    return out


class Definition:
    """A definition of a file of specs/: its text with the comment above it, and its line."""

    MARK = re.compile(r"(?:^|\s)-- .*$")

    def __init__(self, file, name):
        self.file, self.name = file, name
        raw = file.path.read_text(encoding="utf-8").splitlines()
        seen = [self.MARK.sub("", re.sub(r'"[^"\n]*"', '""', line)).rstrip() for line in raw]
        first, last, indent = self.place(seen)
        self.line = first + 1
        self.text = "\n".join(line[indent:] if line[:indent].isspace() else line for line in raw[first : last + 1])
        above = first
        while above > 0 and raw[above - 1].strip().startswith("--"):
            above -= 1
        self.comment = [re.sub(r"^\s*-- ?", "", line) for line in raw[above:first]] if above > 0 else []

    def place(self, seen):
        """The first and the last line, and how far they stand from the margin in a section."""
        wanted = self.file.lines[self.name]
        for indent in (0, 2):
            for first, line in enumerate(seen):
                if line[indent:] == wanted[0] and (indent == 0 or line[:indent].isspace()):
                    return first, self.last(seen, first, wanted, indent), indent
        return 0, 0, 0

    @staticmethod
    def last(seen, first, wanted, indent):
        at = last = first
        for line in wanted:
            while at < len(seen) and seen[at][indent:] != line:
                at += 1
            last, at = (at, at + 1) if at < len(seen) else (last, at)
        return last


@functools.lru_cache(maxsize=None)
def definition(file, name):
    return Definition(file, name)
