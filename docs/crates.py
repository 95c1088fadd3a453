#!/usr/bin/env python3
"""Writes the families of crates, a diagram of them and a table of the crates into docs/ARCHITECTURE.md, all from
crates.txt, and into docs/DEFINITIONS.md how much a promise rests on, counted along all that its definitions name
(docs/closure.py).

    python3 docs/crates.py           writes them
    python3 docs/crates.py --check   fails where one of them differs

In crates.txt a block that begins with a comment of one line, ended by a full stop or a colon, and no crate directly
below it is a group. Each further comment line describes the crate below it."""
import pathlib
import sys

sys.dont_write_bytecode = True
import closure

TOP = pathlib.Path(__file__).resolve().parent.parent
BEGIN, END = "<!-- crates: written by docs/crates.py -->", "<!-- end of crates -->"
FAMILIES, FAMILIES_END = "<!-- families: written by docs/crates.py -->", "<!-- end of families -->"
DIAGRAM, DIAGRAM_END = "<!-- diagram: written by docs/crates.py -->", "<!-- end of diagram -->"
# Families that only stand on the others: they are left out of the diagram and of the table of what depends on what.
LEAVES = ("Samples", "Worked rows", "Tests", "Measurements")


def groups():
    """The groups, each a title and its crates: name, description, libraries."""
    found, said = [], []
    for block in (TOP / "crates.txt").read_text().split("\n\n")[1:]:
        lines = block.strip().split("\n")
        found.append((lines[0].lstrip("# ").rstrip("."), []))
        said = []
        for line in lines[1:]:
            if line.startswith("#"):
                said.append(line.lstrip("# "))
            else:
                name, _, libraries = line.partition(":")
                found[-1][1].append((name.split()[0], " ".join(said), libraries.split()))
                said = []
    return found


def families():
    """A line for each family: what its first crate is, and the others."""
    out = []
    for title, crates in groups():
        (first, said, _), rest = crates[0], crates[1:]
        line = f"- {title.split(':')[0]}: `{first}` ({said[:1].lower() + said[1:].rstrip('.')})"
        if rest:
            line += "; " + ", ".join(f"`{name}`" for name, _, _ in rest)
        out.append(line + ".")
    return "\n".join(out)


def architecture():
    """A row for each crate but those that only stand on the others."""
    out = ["| Crate | What it is | Depends on |", "|---|---|---|"]
    for title, crates in groups():
        for name, said, libraries in crates if not title.startswith(LEAVES) else []:
            short = [x.removeprefix("sshc_") if x.startswith("sshc_") else f"`{x}`" for x in libraries]
            out.append(f"| `{name}` | {said.rstrip('.')} | {', '.join(short)} |")
    return "\n".join(out) + "\n"


# A promise: what it says, the fields of RunPromises that say it, and the files where to begin reading; a folder stands for
# all of its files.
PROMISES = [
    (
        "No packet before the known hosts text accepts the host key",
        "gate",
        "sshc_run_script: Headline KnownHosts RecordLines; sshc_hosts: MatchingLines Judgement; sshc_run_reader: Script",
    ),
    (
        "A session is opened only by a key that this text accepts by its meaning",
        "accepted",
        "sshc_run_script: OpenedKey OpeningRun OpeningFirst; sshc_hosts: Acceptance",
    ),
    (
        "What is written is what the tables say",
        "run opening opening_done opening_complete prefix done kept complete",
        "sshc_run_script: Headline OpeningFirst OpeningRun Outcome ScriptRun Machine Turn RunTurn SessionTurn;"
        " sshc_auth: OpeningState Row OpeningTable OpeningTable/; sshc_client_table: SessionState SessionRow Moves SessionTable SessionTable/",
    ),
    (
        "Each end and each error has its cause",
        "causes counts",
        "sshc_run_script: Causes ReachedStates RunOutside RunFaults; sshc_auth: Causes; sshc_client_table: OpenCauses",
    ),
    (
        "Signatures, passwords, replies and opens",
        "signed calls askers passwords replies opens opens_once steps",
        "sshc_run_script: SignedRequests Askers PasswordRuns ReplyOrder OpenAnswers OpenCounts OpenSteps; sshc_auth: Passwords; sshc_auth_request: RequestTexts",
    ),
    ("Channels", "channels", "sshc_run_script: ChannelRuns; sshc_mux: ChannelState ChannelTable ChannelTable/ Packets ChannelAccount"),
    (
        "One history of one agent",
        "agents",
        "sshc_run_script: AgentRuns; sshc_agent_core: KeyList Deadlines AgentFrames AgentTable AgentTable/ Turn AgentHistory LockLaw",
    ),
]


def in_all(definitions):
    return f"{closure.size(definitions):,} lines, {len(definitions):,} definitions"


def files_in(definitions):
    """The files of these definitions, as `crate: File, File; crate: File`."""
    crates = {}
    for crate, name in closure.by_file(definitions):
        crates.setdefault(crate, []).append(name)
    return "; ".join(f"{crate}: {', '.join(names)}" for crate, names in crates.items())


def definitions():
    """A row for each promise: the files where to begin, what they hold, and what the promise rests on in all."""
    fields = closure.record_fields(TOP / "crates" / "sshc_run_script" / "specs" / "RunPromises.antt", "RunPromises")
    left = set(fields) - {name for _, names, _ in PROMISES for name in names.split()}
    if left:
        sys.exit(f"fields of RunPromises that no row of docs/crates.py has: {' '.join(sorted(left))}")
    out = ["| Promise, and its fields | Files below `specs/` to begin with | They hold | It rests in all on |", "|---|---|---|---|"]
    whole, first = set(), None
    for promise, names, homes in PROMISES:
        begin = set()
        for home in homes.split(";"):
            crate, _, files = home.strip().partition(": ")
            for file in files.split():
                at = TOP / "crates" / crate / "specs" / file
                for path in sorted(at.iterdir()) if file.endswith("/") else [at.with_suffix(".antt")]:
                    begin |= set(closure.of_file(path))
        rests = closure.closure(it for name in names.split() for it in fields[name])
        whole |= rests
        first = first or rests
        cells = [
            f"{promise} ({', '.join(f'`{name}`' for name in names.split())})",
            "; ".join(home.strip().replace(" ", ", ").replace(":,", ":") for home in homes.split(";")),
            in_all(begin),
            f"{in_all(rests)}, in {len(closure.by_file(rests))} files",
        ]
        out.append(f"| {' | '.join(cells)} |")
    record = {it for it in closure.of_file(TOP / "crates" / "sshc_run_script" / "specs" / "RunPromises.antt")}
    whole |= closure.closure(record)
    out.append(f"| All of `RunPromises` | | | {in_all(whole)}, in {len(closure.by_file(whole))} files |")
    laws = {home: names for home, names in closure.by_file(whole).items() if home[1].endswith("Laws")}
    out += ["", f"The files of the first row's definitions: {files_in(first)}."]
    if laws:
        listed = "; ".join(f"{crate}: {file} ({', '.join(f'`{name}`' for name in names)})" for (crate, file), names in laws.items())
        out += ["", f"Definitions among all of these whose file is named as one of laws: {listed}."]
    return "\n".join(out) + "\n"


def diagram():
    """The families, with an arrow from each to those further down the list that use it, but for arrows that others imply."""
    all_families = [(title.split(":")[0], crates) for title, crates in groups() if not title.startswith(LEAVES)]
    home = {name: title for title, crates in all_families for name, _, _ in crates}
    order = [title for title, _ in all_families]
    below = {
        title: {home[x] for _, _, libraries in crates for x in libraries if x in home} & set(order[: order.index(title)])
        for title, crates in all_families
    }

    def all_below(title, seen):
        for other in below[title] - seen:
            seen.add(other)
            all_below(other, seen)
        return seen

    number = {title: f"f{at}" for at, title in enumerate(order)}
    drawn = set()

    def node(title):
        """The family's node, with its title where it is drawn first."""
        if title in drawn:
            return number[title]
        drawn.add(title)
        return f'{number[title]}["{title}"]'

    out = ["```mermaid", "flowchart BT"]
    for title in order:
        direct = [x for x in below[title] if not any(x in all_below(y, set()) for y in below[title] - {x})]
        if direct:
            out.append(f"    {' & '.join(node(x) for x in sorted(direct, key=order.index))} --> {node(title)}")
    return "\n".join(out + ["```"]) + "\n"


def main():
    wrong = []
    texts = [
        ("docs/ARCHITECTURE.md", FAMILIES, FAMILIES_END, families() + "\n"),
        ("docs/ARCHITECTURE.md", BEGIN, END, architecture()),
        ("docs/ARCHITECTURE.md", DIAGRAM, DIAGRAM_END, diagram()),
        ("docs/DEFINITIONS.md", BEGIN, END, definitions()),
    ]
    for path, begin, end, text in texts:
        file = TOP / path
        before, rest = file.read_text().split(begin)
        _, after = rest.split(end)
        now = f"{before}{begin}\n\n{text}\n{end}{after}"
        if now != file.read_text():
            wrong.append(path)
            if "--check" not in sys.argv:
                file.write_text(now)
    if "--check" in sys.argv and wrong:
        sys.exit(f"differs from what docs/crates.py writes: {' '.join(wrong)}")


main()
