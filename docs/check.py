#!/usr/bin/env python3
"""Looks in the documents for what the repository doesn't have, and prints a line for each.

    python3 docs/check.py

- A path, and a file's bare name, has to be the end of a file's path, or of a folder's; a path inside a crate, in the
  README of one, has to be that crate's or one's that the line names; a crate has to be in crates.txt.
- A name between backticks, and each part of `Type::call`, has to be a word of some file that is no document, or the name
  of a row or of a wrong body; so has a name with dashes, as rows and errors have. Names of the Rust crate, of OpenSSH and
  of what was there once are left out where a document is about them (OTHERS), but not in its appendix.
- A part of a document that is cited by its title has to be there.
- In docs/DEFINITIONS.md each definition has to be a word of the files that its row names; in a crate's table of claims
  the calls and clauses have to be words of that crate, or of a crate that it uses.
- A count of the repository's crates or edits has to be right, and no other count of what is in it may stand in a
  document, since nothing would notice when it no longer is so. What was measured on a day is no such count (DATED), and
  what docs/crates.py writes is compared by it.
- A document of docs/ and of the top has at most so many words (WORDS; those of MORE_WORDS more, each with its reason;
  those of FEWER_WORDS fewer), and no line of text is longer than anybody reads (LONGEST).
- A function of sshc_sample_snippets that a document quotes has to stand there as it is quoted.
- Each wrong body and each must-fail edit has to apply, and docs/WRONG_BODIES.md to be what their files say, which
  tests/wrong_bodies.py compares.
- A file of specs/ holds definitions, or its name ends in Laws. A law is what has a type and no other mark, and whose
  type ends with a relation. Equality tests and codes hold the proofs that they are right (WITH_PROOFS).

The lists and counts that docs/crates.py writes are compared by `docs/crates.py --check`."""
import pathlib
import re
import subprocess
import sys
import textwrap

TOP = pathlib.Path(__file__).resolve().parent.parent
# Documents about names that aren't this repository's, or not any more: only paths and crates are looked up there.
OTHERS = ("CHANGELOG.md", "docs/DIFFERENCES.md", "docs/WRONG_BODIES.md", "docs/DECISIONS.md", "bench/")
# Documents of what was measured or tried on a day.
DATED = ("CHANGELOG.md", "docs/WRONG_BODIES.md", "docs/HOSTILE.md", "bench/")
# The most words of a document of docs/ and of the top.
WORDS = 2500
# Those that a stranger reads first.
FEWER_WORDS = {"README.md": 1000, "SECURITY.md": 400, "docs/TRUST.md": 700}
# Those that may have more, and why.
MORE_WORDS = {
    "docs/WRONG_BODIES.md": (10000, "a table, written from the files of wrong bodies"),
    "docs/DECISIONS.md": (18800, "a list of entries with four labelled lines each, looked up by what they decide"),
    "docs/DEFINITIONS.md": (7000, "a glossary, and a table of every definition that a promise rests on"),
    "docs/DIFFERENCES.md": (5750, "a table of what differs from russh, call by call, and one of the situations of its tests"),
    "docs/ARCHITECTURE.md": (3300, "a table of every crate and of what it depends on"),
    "docs/FORMATS.md": (3500, "tables of bytes, kind by kind"),
    "docs/PROOF_GUIDE.md": (3200, "hints by the kind of proof, looked up one at a time"),
    "docs/HOSTILE.md": (3200, "tables of faults and of what each refusal leaves"),
    "docs/TABLES.md": (2900, "the tables of the protocol, row by row"),
}
# The most characters of a line that is no row of a table.
LONGEST = 1700
# Functions of the C library, and words of the language.
STANDARD = {"memcpy", "memmove", "memset"}
# Names of files that aren't the repository's, and of the kit.
FOREIGN = {"lib.rs", "main.rs", "mod.rs", "rattle-kit-13f"}
ENDING = r"(?:rt|antt|md|py|sh|c|h|rs|go|txt|edit)"
PATH = re.compile(rf"(?<![\w./-])((?:[\w.-]+/)+[\w.-]+\.{ENDING})(?![\w/])")
FILE = re.compile(rf"(?<![\w./-])([A-Za-z_]\w*\.{ENDING})(?![\w/])")
WITHIN = re.compile(r"(?<![\w./-])((?:src|specs|proofs|data|must-fail)/[\w./-]*\w)")
CRATE = re.compile(r"\bsshc_[a-z_]*[a-z]\b(?!_)")
CODE = re.compile(r"(?<!`)`([^`\n]+)`(?!`)")
NAME = re.compile(r"[A-Za-z_][A-Za-z_0-9]*\Z")
CALL = re.compile(r"([A-Za-z_]\w*)::(?:([A-Za-z_]\w*)|\{([^}]*)\})\Z")
PART = re.compile(r'`(docs/[A-Z_]+\.md)`, "([^"]+)"')
# The name of a row of data, of a kind or of an error, as it is printed.
DASHED = re.compile(r"[a-z0-9]\w*(?:-\w+)+\Z")
NUMBERS = "ten eleven twelve thirteen fourteen fifteen sixteen twenty thirty forty fifty sixty seventy eighty ninety hundred".split()
THINGS = "crates edits lemmas clauses promises definitions functions files documents situations rows".split()
COUNT = re.compile(rf"\b([0-9][0-9,]*|{'|'.join(NUMBERS)}) (?:[a-z-]+ )?({'|'.join(THINGS)})\b", re.IGNORECASE)
SMALL = 9
# Files of specs/ whose definitions are values with proofs in them.
WITH_PROOFS = re.compile(r"(?:Codes?|KeyEq|Tested)\.antt\Z")
SIGNATURE = re.compile(r"^(?:pub )?([^\s:(){}]+) : (.*(?:\n[ \t]+(?![^\n=]* = ).*)*)", re.MULTILINE)
RELATION = re.compile(r"≡|≢|≤|<|\bIs[A-Z]")


def tracked():
    said = subprocess.run(["git", "ls-files", "-co", "--exclude-standard"], cwd=TOP, capture_output=True, text=True)
    return [name for name in said.stdout.splitlines() if (TOP / name).is_file()]


def edits():
    """How many must-fail edits there are."""
    said = subprocess.run(["git", "ls-files"], cwd=TOP, capture_output=True, text=True)
    return sum("/must-fail/" in name for name in said.stdout.splitlines())


def names_of(code):
    """The names in what stands between backticks, where it is a name, a call, or a few of these."""
    for part in re.split(r",\s*(?![^{]*\})", code):
        part = part.strip().rstrip("()")
        if NAME.match(part):
            yield part
        elif CALL.match(part):
            kind, one, many = CALL.match(part).groups()
            yield kind
            for name in [one] if one else many.split(","):
                yield name.strip()


def words_in(text):
    return set(re.findall(r"[A-Za-z_][A-Za-z_0-9]*", text))


def dashed_in(text):
    return set(re.findall(r"(?<![\w-])[a-z0-9]\w*(?:-\w+)+", text))


def cells_of(line):
    """The cells of a table's row."""
    return [cell.strip() for cell in re.split(r"(?<!\\)\|", line)[1:-1]]


def without_blocks(text):
    return re.sub(r"(?ms)^```.*?^```", lambda block: "\n" * block.group().count("\n"), text)


def of_definition(line):
    """What is wrong with a row of docs/DEFINITIONS.md: a file, or a name that its files don't have."""
    cells = cells_of(line)
    if len(cells) != 5 or not cells[0].startswith("`"):
        return []
    wrong, words = [], set()
    for part in cells[1].split(";"):
        crate, _, names = part.strip().partition(":")
        for name in names.split(","):
            at = TOP / "crates" / crate / "specs" / name.strip()
            files = sorted(at.glob("**/*.antt")) if name.endswith("/") else [at.with_suffix(".antt")]
            for file in files:
                if file.is_file():
                    words |= words_in(file.read_text())
                else:
                    wrong.append(f"no file {file.relative_to(TOP)}")
    return wrong + [f"{name} isn't in {cells[1]}" for name in re.findall(r"`(\w+)`", cells[0]) if name not in words]


class Crates:
    """The crates of crates.txt, and the words of each and of those that it uses."""

    def __init__(self):
        self.uses = {}
        for line in (TOP / "crates.txt").read_text().splitlines():
            if ":" in line and not line.startswith("#"):
                head, _, tail = line.partition(":")
                self.uses[head.split()[0]] = tail.split()
        self.words, self.around = {}, {}

    def own(self, crate):
        if crate not in self.words:
            files = [file for part in ("src", "specs", "proofs") for file in (TOP / "crates" / crate / part).glob("**/*") if file.suffix in (".rt", ".antt")]
            self.words[crate] = set().union(*(words_in(file.read_text()) for file in files)) if files else set()
        return self.words[crate]

    def seen(self, crate):
        """Whose words a crate's table of claims may name."""
        if crate not in self.around:
            self.around[crate] = self.own(crate).union(*(self.own(other) for other in self.uses.get(crate, []) if other in self.uses))
        return self.around[crate]


def laws_in(name):
    """The laws that a file of definitions holds."""
    if not re.search(r"/specs/.*\.antt\Z", name) or re.search(r"Laws(?:/\w+)?\.antt\Z", name) or WITH_PROOFS.search(name):
        return []
    types = SIGNATURE.findall((TOP / name).read_text())
    return [law for law, type_ in types if RELATION.search(type_.rsplit(" → ", 1)[-1]) and not type_.rstrip().endswith("Type 0")]


QUOTE = re.compile(r"(?ms)^```rust\n(.*?)^```")
FUNCTION = re.compile(r"(?ms)^((?: *///[^\n]*\n| *#\[[^\n]*\n)*)( *)(?:pub )?fn (\w+).*?^\2\}\n")


def dedented(text):
    return textwrap.dedent(text).strip()


def snippet_functions():
    """The functions of sshc_sample_snippets by name, each with what stands before it."""
    found = {}
    for file in (TOP / "crates" / "sshc_sample_snippets" / "src").glob("*.rt"):
        for it in FUNCTION.finditer(file.read_text()):
            found.setdefault(it[3], []).append(dedented(it[0]))
    return found


def misquoted(text, snippets):
    """The functions of sshc_sample_snippets that a document quotes otherwise than they are: a line, and what is wrong.
    A block that begins `#![` is a whole file of its own."""
    for block in QUOTE.finditer(text):
        for it in FUNCTION.finditer(block[1] if not block[1].startswith("#![") else ""):
            if it[3] in snippets and not any(whole.endswith(dedented(it[0])) for whole in snippets[it[3]]):
                at = text.count("\n", 0, block.start(1) + it.start(3)) + 1
                yield at, f"{it[3]} isn't as in sshc_sample_snippets"


def of_wrong_bodies():
    """What tests/wrong_bodies.py finds wrong."""
    script = [sys.executable, "-B", TOP / "tests" / "wrong_bodies.py"]
    for words in (["--apply"], ["--page", "--check"]):
        ran = subprocess.run([*script, *words], capture_output=True, text=True)
        if ran.returncode:
            yield from (ran.stdout + ran.stderr).splitlines()


def main():
    files = tracked()
    folders = {str(parent) for name in files for parent in pathlib.PurePath(name).parents}
    ends = {"/".join(parts[at:]) for name in [*files, *folders] for parts in [name.split("/")] for at in range(len(parts))}
    crates = Crates()
    right = {"crates": len(crates.uses), "edits": edits()}
    words, dashed = set(STANDARD), set(FOREIGN)
    for name in files:
        if not name.endswith(".md"):
            try:
                # The names in a wrong body are not the code's.
                text = (TOP / name).read_text() if "/wrong/" not in name else ""
                words |= words_in(text)
                dashed |= dashed_in(text)
            except UnicodeDecodeError:
                pass
            words |= words_in(name)
            dashed |= dashed_in(name)
    texts = {name: (TOP / name).read_text() for name in files if name.endswith(".md")}
    snippets = snippet_functions()
    found = 0

    def report(name, at, what):
        nonlocal found
        print(f"{name}:{at}: {what}")
        found += 1

    for what in of_wrong_bodies():
        print(what)
        found += 1
    for name in files:
        for law in laws_in(name):
            report(name, 1, f"{law} is a law: its file's name has to end in Laws")

    for name, text in texts.items():
        lines = without_blocks(text).splitlines()
        for at, what in misquoted(text, snippets):
            report(name, at, what)
        if name.startswith("docs/") or "/" not in name and name != "CHANGELOG.md":
            most = FEWER_WORDS.get(name) or MORE_WORDS.get(name, (WORDS,))[0]
            if len(text.split()) > most:
                report(name, len(lines), f"more than {most} words: {len(text.split())}")
        in_claims = is_written = in_appendix = False
        for at, line in enumerate(lines, 1):
            wrong = [path for path in PATH.findall(line) if path.removeprefix("./").removeprefix("../").removeprefix("../") not in ends and "*" not in path]
            if name != "CHANGELOG.md":
                wrong += [crate for crate in CRATE.findall(line) if crate not in crates.uses and crate not in words]
            in_appendix = in_appendix or line.startswith("## Appendix")
            if in_appendix or not name.startswith(OTHERS):
                wrong += [file for file in FILE.findall(line) if file not in ends and file not in FOREIGN]
                named = [word for code in CODE.findall(line) for word in names_of(code)]
                wrong += [word for word in named if word not in words and f"{word}_row" not in words and "_" not in (word[0], word[-1])]
            if not name.startswith(("CHANGELOG.md", "bench/")):
                wrong += [word for code in CODE.findall(line) for word in code.split(", ") if DASHED.match(word) and word not in dashed]
            wrong = [word for word in wrong if "NAME" not in word and "MODULE" not in word]
            wrong += [f'no part "{title}" of {other}' for other, title in PART.findall(line) if title not in texts.get(other, "")]
            if name == "docs/DEFINITIONS.md":
                wrong += of_definition(line)
            if name.startswith("crates/"):
                homes = [name.split("/")[1], *CRATE.findall(line)]
                wrong += [path for path in WITHIN.findall(line) if not any((TOP / "crates" / home / path).exists() for home in homes) and "must-fail" not in path]
                in_claims = line.startswith("|") and (in_claims or line.startswith("| Claim |"))
                if in_claims:
                    seen = crates.seen(name.split("/")[1])
                    wrong += [f"{word} is in no crate that this one uses" for cell in cells_of(line)[1:] for code in CODE.findall(cell) for word in names_of(code) if word not in seen and word in words]
            is_written = "written by docs/crates.py -->" in line or is_written and not line.startswith("<!-- end")
            if not name.startswith(DATED) and not is_written:
                for number, thing in COUNT.findall(line):
                    count = int(number.replace(",", "")) if number[0].isdigit() else SMALL + 1
                    if count > SMALL and count != right.get(thing.lower()):
                        wrong.append(f"nothing checks the count of {thing.lower()}: {number}")
            if not line.startswith("|") and len(line) > LONGEST:
                wrong.append(f"a line of {len(line)} characters")
            for what in dict.fromkeys(wrong):
                report(name, at, what)
    sys.exit(1 if found else 0)


main()
