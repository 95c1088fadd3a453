"""What a definition of crates/*/specs rests on: every definition that its text names, and what those name, to the ground.

A definition is a type, a record, a data type, a function by cases, or a law. What the kit declares, and the types and
constants that code declares (specs.declared), are the ground: they aren't followed and not counted. Its lines are those of
its type and its cases, without comments and blank lines. A name that a case or a binder binds is no name of a definition."""
import functools
import pathlib
import re

CRATES = pathlib.Path(__file__).resolve().parent.parent / "crates"
USE = re.compile(r"^(?:unfoldable )?(?:pub )?use (\w[\w.]*?)(?:\.\{([^}]*)\})?(?: as (\S+))?$", re.MULTILINE)
HEAD = re.compile(r"(?:(?:abbrev|unfoldable) )?(?:pub )?(?:(?:record|data) )?([^\s:(){},;.]+)(?= :| [({]|$)")
IDENTIFIER = re.compile(r"(?<![\w.'])[^\W\d][\w']*(?:\.[^\W\d][\w']*)*")
CASE = re.compile(r"((?:(?!\s:\s).)*?)\s=\s", re.DOTALL)
FIELD = re.compile(r"(?<=[{;])\s*\w+ =(?!=)")
BINDER = re.compile(r"[({]([\w' ]+?) :(?!:)|λ ([\w' ,()×_]+?)\.|\blet ([\w']+)")


class File:
    """A file of definitions: the lines of each by its name, the names of its data types' cases, and its imports."""

    def __init__(self, path):
        self.path = path
        text = re.sub(r'"[^"\n]*"', '""', re.sub(r"(?m)(?:^|\s)-- .*$", "", path.read_text()))
        self.lines, self.homes, self.imports, self.aliases = {}, {}, {}, {}
        for source, names, alias in USE.findall(text):
            for part in re.split(r",\s*", names.strip()) if names else []:
                name, _, called = part.partition(" as ")
                self.imports[called or name] = (source, name)
            if alias:
                self.aliases[alias] = source
        self.read([line.rstrip() for line in USE.sub("", text).splitlines()])

    def read(self, lines):
        current, marks, within = None, [], None
        for line in lines:
            if not line or line.startswith(("pub mod ", "--")):
                continue
            if line.startswith("module "):
                within = []
                continue
            if within is not None and line.startswith("  "):
                within.append(line[2:])
                continue
            if within:
                self.read(within)
            within = None
            if line.startswith("unfolding "):
                marks.append(line)
                continue
            # A line at the margin begins a definition, or a case of one; all others go on with it.
            first = line.split()[0]
            head = None if line[0] in " }])" else HEAD.match(line)
            if head and first in self.lines:
                current = first
            elif head:
                current = head[1]
                self.lines.setdefault(current, []).extend(marks)
                marks = []
            if current is None:
                # what goes on with a module's head
                continue
            self.lines[current].append(line)
            case = re.match(r"  (?:pub )?([^\s:()]+) : ", line)
            if case and re.match(r"(?:pub )?data ", self.lines[current][0]):
                self.homes[case[1]] = current
        if within:
            self.read(within)


@functools.cache
def file_of(module):
    """The file of a module of specs/, and what is left of the module's name: a type of the file whose cases are meant."""
    parts = module.split(".")
    if parts[0] != "Rattle" or len(parts) < 4 or parts[2] != "specs" or parts[3] == "declared":
        return None, ""
    for end in range(len(parts), 3, -1):
        path = CRATES.joinpath(parts[1], "specs", *parts[3:end]).with_suffix(".antt")
        if path.is_file():
            return File.at(path), ".".join(parts[end:])
    return None, ""


File.at = staticmethod(functools.cache(File))


def found(file, name):
    """The definition that a name means in a file, if it is one of these crates': its file and its name."""
    if name in file.lines:
        return file, name
    if name in file.homes:
        return file, file.homes[name]
    return None


def meant(file, name):
    """The definition that a name in a file's text means."""
    here = found(file, name.split(".")[0])
    if here:
        return here
    first, _, rest = name.partition(".")
    source, what = file.imports.get(first) or (file.aliases.get(first, ""), rest.split(".")[0])
    home, left = file_of(source) if source else (None, "")
    if not home or home is file:
        return None
    # A file may pass on the names of others.
    return found(home, left or what) or meant(home, left or what)


def is_case(file, name):
    """Whether a name that stands in a pattern is the case of a data type, and no name for what is matched."""
    first = name.split(".")[0]
    if first in file.homes or "." in name:
        return True
    source, what = file.imports.get(first, ("", ""))
    home, left = file_of(source) if source else (None, "")
    return bool(home and home is not file and (left or what in home.homes or is_case(home, what)))


def is_used(operator, piece):
    """Whether a piece uses an operator: it has each of its parts, or is a `do` block, which is read by `>>=`."""
    parts = [part for part in operator.split("◌") if part]
    return all(f" {part} " in piece for part in parts) or operator == "◌>>=◌" and re.search(r"\bdo\b", piece)


def names_in(file, piece, function):
    """The names of one type or case that aren't bound in it."""
    bound = set()
    case = CASE.match(piece) if piece.startswith(f"{function} ") else None
    if case:
        bound |= {name for name in IDENTIFIER.findall(case[1]) if name != function and not is_case(file, name)}
    for groups in BINDER.findall(piece):
        for group in groups:
            bound |= set(re.findall(r"[\w']+", group))
    names = IDENTIFIER.findall(FIELD.sub("", piece))
    operators = [name for name in {**file.lines, **file.imports} if "◌" in name and is_used(name, piece)]
    return [name for name in names if name.split(".")[0] not in bound] + operators


def named_by(file, name):
    """The definitions that a definition's text names."""
    lines = file.lines[name]
    is_record = re.match(r"(?:pub )?record ", lines[0])
    fields = set(re.findall(r"(?m)^  (?:pub )?([\w']+) : ", "\n".join(lines))) if is_record else set()
    pieces = []
    for line in lines:
        if not pieces or line.split()[0] == name and not line.startswith(" "):
            pieces.append(line)
        else:
            pieces[-1] += f"\n{line}"
    out = []
    for piece in pieces:
        for other in names_in(file, piece, name):
            if other.split(".")[0] not in fields:
                there = meant(file, other)
                if there and there != (file, name):
                    out.append(there)
    return out


def closure(start):
    """These definitions and all that they rest on, each its file and its name."""
    seen, left = set(), list(start)
    while left:
        it = left.pop()
        if it not in seen:
            seen.add(it)
            left.extend(named_by(*it))
    return seen


def size(definitions):
    """How many lines these definitions have."""
    return sum(len(file.lines[name]) for file, name in definitions)


def by_file(definitions):
    """The names of these definitions by their crate and file, in the order of their names."""
    homes = {}
    for file, name in sorted(definitions, key=lambda it: (it[0].path, it[1])):
        crate, _, *parts = file.path.relative_to(CRATES).with_suffix("").parts
        homes.setdefault((crate, "/".join(parts)), []).append(name)
    return homes


def of_file(path):
    """The definitions of a file."""
    file = File.at(path)
    return [(file, name) for name in file.lines]


def record_fields(path, record):
    """The fields of a record: of each its name, and the definitions that its type names."""
    file = File.at(path)
    fields = {}
    for line in file.lines[record][1:]:
        it = re.match(r"  (?:pub )?([\w']+) : ", line)
        if it:
            current = it[1]
            fields[current] = ""
        fields[current] += f"\n{line}"
    # A field's own name is no definition's, though another definition may have it.
    return {name: [there for other in names_in(file, text.partition(" : ")[2], "") for there in [meant(file, other)] if there] for name, text in fields.items()}
