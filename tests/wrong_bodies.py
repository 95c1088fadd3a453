#!/usr/bin/env python3
"""Wrong bodies: mistakes in the code that its contracts have to refuse, a file each.

    python3 tests/wrong_bodies.py --apply           does each still apply? Without the prover
    python3 tests/wrong_bodies.py [NAME..]          tries those of these crates, or of all, with the prover
    python3 tests/wrong_bodies.py --page [--check]  writes docs/WRONG_BODIES.md, or compares it

A wrong body is crates/CRATE/wrong/NAME.edit, in the form of rt's must-fail edits (`rt doc`), and begins with two lines:
`# ` and what is wrong, `# expect: ` and either `refused by WHAT` or `proves, because WHY`. `rt ci` tries the edits of
must-fail/ alone. A line of crates/CRATE/wrong/by_hand.txt is one that was tried without a file: `WHAT | ITS REFUSAL`.

A try never touches the checkout: a copy's must-fail/ holds the files of wrong/, and `rt must-fail` tries them over the
libraries that `rt ci` kept (tests/kept.py). The exit status is 1 where a body doesn't do what its file expects."""
import os
import pathlib
import re
import shutil
import subprocess
import sys
import tempfile

sys.dont_write_bytecode = True
import kept

TOP = pathlib.Path(__file__).resolve().parent.parent
PAGE = TOP / "docs" / "WRONG_BODIES.md"
HEAD = (
    "# Wrong bodies that were tried\n\n"
    "Written by `tests/wrong_bodies.py --page` from the files.\n\n"
    "A wrong body is a mistake in a function's code that its contract has to refuse. Each name below is a file "
    "`wrong/NAME.edit` of its crate, in the form of a must-fail edit, which says what changes. The last column "
    "names the function whose contract, and its clause where one was picked out, is expected to refuse the "
    "body, or says why it proves: that is what the file expects, from what the prover said when it was tried, "
    "or from reading the clauses. Bodies that only return `NoMemory` prove almost everywhere, since no clause "
    "excludes that; they have no files.\n\n"
    "`rt ci` tries the edits in `must-fail/` alone (`docs/DECISIONS.md`, \"The gate tries an edit at every "
    "face\"). `python3 tests/wrong_bodies.py CRATE` tries the others, in a copy of the repository, and compares "
    "what the prover says with what each file expects; `--apply`, which `docs/check.py` runs, only looks "
    "whether each still applies. The files were made on 2026-12-01, from edits and from notes of what had been "
    "tried until then; since that day the prover has tried those of `sshc_transport` again, and no others. "
    "Those without a file were planted by hand, one at a time, and what refused them was noted then; nothing "
    "tries them again. In `put_keyboard_interactive`, `send_front`, `next_number`, `settle_server` and "
    "`write_lines` what was refused are proofs written by hand, which don't fit the wrong bodies; that no "
    "others would is by reading the clauses.\n"
)
EXPECTS = re.compile(r"(refused) by \S|(proves), because \S")
REFUSED, PROVES, UNFIT, UNTOLD = "refused", "proves", "doesn't apply", "could not tell"
# What `rt must-fail` says of an edit, and what it comes to.
VERDICTS = (
    ("refused, as it must be (only by a limit of the prover", UNTOLD),
    ("refused, as it must be", REFUSED),
    ("NOT REFUSED", PROVES),
    ("BAD EDIT", UNFIT),
    ("NOT TRIED", UNTOLD),
)
SAID = re.compile(r"rt: must-fail (\w+)/(\w+)\.edit: (.*)")


def crates():
    """The names of the crates, in the order of crates.txt."""
    lines = (TOP / "crates.txt").read_text().splitlines()
    return [line.split(":")[0].split()[0] for line in lines if ":" in line and not line.startswith("#")]


def files_of(crate, part="wrong"):
    return sorted((TOP / "crates" / crate / part).glob("*.edit"))


def head_of(edit):
    """What is wrong with a body, and what its file expects."""
    said = [line[2:] for line in edit.read_text().splitlines() if line.startswith("# ")]
    expects = [line.removeprefix("expect: ") for line in said if line.startswith("expect: ")]
    return " ".join(line for line in said if not line.startswith("expect: ")), "".join(expects)


def pairs_of(edit):
    """The changes of an edit: a file of the crate, a text in it, and what replaces it."""
    file = old = None
    for line in edit.read_text().splitlines():
        if line.startswith("file: "):
            file = line[len("file: ") :].strip()
        elif line.startswith("old: "):
            old = line[len("old: ") :]
        elif line.startswith("new:"):
            yield file, old, line[len("new:") :].removeprefix(" ")


def misfit(edit):
    """Why an edit doesn't apply, if it doesn't."""
    texts, was = {}, {}
    for file, old, new in pairs_of(edit):
        at = edit.parent.parent / str(file)
        if not file or not old or not at.is_file():
            return f"there is no file {file}"
        was.setdefault(file, at.read_text())
        text = texts.get(file, was[file])
        if text.count(old) != 1:
            return f"{file} has {text.count(old)} times: {old}"
        texts[file] = text.replace(old, new)
    return "it changes nothing" if texts == was else None


def apply():
    """Says which bodies don't apply, or don't say what they have to."""
    count, wrong = 0, []
    for crate in crates():
        for edit in files_of(crate) + files_of(crate, "must-fail"):
            name, why = edit.relative_to(TOP), misfit(edit)
            what, expects = head_of(edit)
            count += 1
            if why:
                wrong.append(f"{name}: doesn't apply: {why}")
            if edit.parent.name == "wrong" and not (what and EXPECTS.match(expects)):
                wrong.append(f"{name}: its first lines have to say what is wrong and what is expected")
    print("\n".join([*wrong, f"{count} wrong bodies and must-fail edits, {len(wrong)} to mend"]))
    return bool(wrong)


# ---- tries


def copied(names, room):
    """A copy of the crates, in which must-fail/ of those named holds the bodies that apply."""
    words = ["git", "ls-files", "-coz", "--exclude-standard", "crates", "crates.txt", "HANDLES"]
    said = subprocess.run(words, cwd=TOP, capture_output=True, text=True, check=True).stdout
    for name in said.split("\0"):
        if (TOP / name).is_file() and "/must-fail/" not in name and "/wrong/" not in name:
            os.makedirs(os.path.dirname(f"{room}/{name}"), exist_ok=True)
            shutil.copy(TOP / name, f"{room}/{name}")
    for crate in names:
        os.makedirs(f"{room}/crates/{crate}/must-fail")
        for edit in files_of(crate):
            if not misfit(edit):
                shutil.copy(edit, f"{room}/crates/{crate}/must-fail/{edit.name}")


def verdict_of(said, after):
    """The verdict in what `rt must-fail` says of an edit, whose last words may stand on the line after it."""
    kind = next(kind for words, kind in VERDICTS if said.startswith(words))
    told = (said.partition(": ")[2] or said) + (f" {after}" if said.endswith(":") else "")
    if kind == UNFIT:
        return UNFIT, f"it doesn't compile: {told}"
    return kind, "" if kind == PROVES else told


def said_by(words, folder):
    """The exit status of a command, and the lines that it prints."""
    ran = subprocess.run(words, cwd=folder, stdout=subprocess.PIPE, stderr=subprocess.STDOUT, text=True)
    return ran.returncode, ran.stdout.strip().splitlines() or [""]


def tried(crate, room):
    """What `rt must-fail` says of each body of the crate: its verdict, and the first line of what it was told. In a
    crate that isn't proved as it stands each would seem to be refused."""
    found = {edit.stem: (UNFIT, misfit(edit)) for edit in files_of(crate) if misfit(edit)}
    status, lines = said_by(["rt", "check"], f"{room}/crates/{crate}")
    if status:
        found |= {it.stem: (UNTOLD, f"the crate isn't proved: {lines[-1]}") for it in files_of(crate)}
        return found
    lines = said_by(["rt", "must-fail", crate], room)[1]
    for line, after in zip(lines, [*lines[1:], ""]):
        said = SAID.match(line)
        if said and said[1] == crate:
            found[said[2]] = verdict_of(said[3], after)
    return {it.stem: found.get(it.stem, (UNTOLD, lines[-1])) for it in files_of(crate)}


def try_all(names):
    """Tries the bodies of these crates, and returns whether one does another thing than its file expects."""
    names, differ = [it for it in names or crates() if files_of(it)], 0
    with tempfile.TemporaryDirectory(prefix="wrong-bodies-") as room:
        copied(names, room)
        lacking = kept.lay(room, names)
        if lacking:
            print("not kept by rt ci, so proved once more:", *lacking, flush=True)
        for crate in names:
            for name, (verdict, told) in tried(crate, room).items():
                expects = head_of(TOP / "crates" / crate / "wrong" / f"{name}.edit")[1]
                is_as_expected = expects.startswith(verdict)
                differ += not is_as_expected
                also = "" if is_as_expected else f" (EXPECTED: {expects})"
                print(f"{crate}/{name}: {verdict}{also}{': ' + told if told else ''}", flush=True)
    print(f"{differ} otherwise than expected, or without a verdict")
    return differ > 0


# ---- the page


def cell(text):
    return text.replace("|", r"\|")


def section(crate):
    """What the page says of a crate."""
    rows = [(edit.stem, *head_of(edit)) for edit in files_of(crate)]
    out = ["| Name | What is wrong | What is expected |", "|---|---|---|"] * bool(rows)
    out += [f"| {name} | {cell(what)} | {cell(expects.removeprefix('refused by '))} |" for name, what, expects in rows]
    by_hand = TOP / "crates" / crate / "wrong" / "by_hand.txt"
    if by_hand.is_file():
        lines = [line.rpartition(" | ") for line in by_hand.read_text().splitlines()]
        out += [""] * bool(rows) + ["| Without a file: what was wrong | What refused it |", "|---|---|"]
        out += [f"| {cell(what)} | {cell(who)} |" for what, _, who in lines]
    links = [f"[{it.stem}](../{it.relative_to(TOP)})" for it in files_of(crate, "must-fail")]
    if links:
        out += [""] * bool(out) + [f"Must-fail edits: {', '.join(links)}."]
    return "\n".join(["", f"## {crate}", "", *out, ""]) if out else ""


def page():
    text = HEAD + "".join(section(crate) for crate in crates())
    if "--check" in sys.argv:
        if text != PAGE.read_text():
            print("docs/WRONG_BODIES.md isn't what tests/wrong_bodies.py --page writes")
            return True
    else:
        PAGE.write_text(text)
    return False


def main():
    words = sys.argv[1:]
    if words == ["--apply"]:
        return apply()
    if words in (["--page"], ["--page", "--check"]):
        return page()
    unknown = [it for it in words if it not in crates()]
    if unknown:
        sys.exit(f"{unknown[0]} is no crate of crates.txt\n\n{__doc__}")
    return try_all(words)


if __name__ == "__main__":
    sys.exit(main())
