#!/usr/bin/env python3
"""Compares the header's declarations with the library's exports, since nothing else does: their types with the source
files of crates/sazhonthil, their names with the archive's symbols.

    check_header.py HEADER CRATE ARCHIVE

A Global has no bytes and no parameter; a slice is a pointer and a length. The numbers of events, records and what else the
header names are compared with docs/FORMATS.md, those of statuses with its list of names."""
import pathlib
import re
import subprocess
import sys

NUMBERS = {"u8": "uint8_t", "u16": "uint16_t", "u32": "uint32_t", "u64": "uint64_t", "usize": "size_t"}
RUNTIME = {"sshc_status_text"}  # declared for callers, and not among the library's exports
STRUCTS = {"SessionHandle": "sshc_session", "AgentHandle": "sshc_agent", "Settings": "sshc_settings"}


def c_types(rattle):
    rattle = rattle.strip()
    if rattle == "Global":
        return []
    if it := re.fullmatch(r"&(mut )?\[(\w+)\]", rattle):
        return [("" if it[1] else "const ") + NUMBERS[it[2]] + " *", "size_t"]
    if it := re.fullmatch(r"&(mut )?(\w+)", rattle):
        return [("" if it[1] else "const ") + (NUMBERS.get(it[2]) or STRUCTS[it[2]]) + " *"]
    return [NUMBERS[rattle]]


def tidy(text):
    return " ".join(re.sub(r"\bsshc_status\b", "uint32_t", text).replace("*", " * ").split())


def declared(header):
    text = re.sub(r"/\*.*?\*/", "", pathlib.Path(header).read_text(), flags=re.S)
    found = {}
    for result, name, given in re.findall(r"^([\w ]+?[\s*]+)(\w+)\(([^)]*)\);", text, re.M):
        types = [tidy(re.sub(r"(\w+)$", "", it.strip())) for it in given.replace("\n", " ").split(",") if it.strip() != "void"]
        found[name] = (tidy(result), types)
    return {name: how for name, how in found.items() if name not in RUNTIME}


def exported(crate):
    found = {}
    for file in pathlib.Path(crate, "src").glob("**/*.rt"):
        for name, given, result in re.findall(r'#\[unsafe\(no_mangle\)\]\s*pub extern "C" fn (\w+)\((.*?)\)(?: -> (\w+))?\s', file.read_text(), re.S):
            types = [tidy(c) for it in given.split(",") if it.strip() for c in c_types(it.split(":", 1)[1])]
            found[name] = (NUMBERS.get(result, "void"), types)
    return found


def fields(text, name, pattern):
    """The fields of a struct of the header or of the source, as types in order."""
    body = re.search(pattern.format(name), text, re.S)
    return body[1] if body else ""


def settings_fit(header, crate):
    c = fields(pathlib.Path(header).read_text(), "sshc_settings", r"typedef struct {} \{{(.*?)\}}")
    rattle = fields(pathlib.Path(crate, "src", "settings.rt").read_text(), "Settings", r"pub struct {} \{{(.*?)\n\}}")
    ours = [(name, NUMBERS[kind]) for name, kind in re.findall(r"pub (\w+): (\w+)", rattle)]
    return ours and ours == [(name, kind) for kind, name in re.findall(r"(uint\d+_t) (\w+);", c)]


def symbols(archive):
    listed = subprocess.run(["nm", "-g", "--defined-only", archive], capture_output=True, text=True, check=True).stdout
    return {line.split()[-1] for line in listed.splitlines() if re.search(r" T sshc_", line)}


# ---- numbers


def numbers(header, prefix):
    """The constants of this prefix, by name."""
    text = re.sub(r"/\*.*?\*/", "", pathlib.Path(header).read_text(), flags=re.S)
    return {name: int(value, 0) for name, value in re.findall(rf"\b{prefix}_([A-Z0-9_]+) = (0x[0-9a-f]+|\d+)", text)}


def section(formats, title):
    return formats.split(f"## {title}\n", 1)[1].split("\n## ", 1)[0]


def upper(name):
    return re.sub(r"(?<=[a-z])(?=[A-Z])", "_", name).upper()


def events_of(formats):
    """The first two columns of the table of events: numbers and names with commas."""
    found = {}
    for kinds, names in re.findall(r"^\| ([0-9a-f]{2}(?:, [0-9a-f]{2})*) \| ([A-Z0-9_, ]+)", section(formats, "Events"), re.M):
        names = [it for it in re.split(r", ?", names.strip()) if it]
        found.update(zip(names, [int(it, 16) for it in kinds.split(", ")]))
    return found


def records_of(formats):
    """All numbers of records, and the names of those that have one."""
    text, found = section(formats, "Records"), {}
    table = text.split("Resolutions:")[0]
    for name, cell in re.findall(r"^\| (\w+)[^|]*\| ([^|]*)\|", table, re.M):
        begun = re.match(r"([0-9a-f]{2})\b", cell)
        for number, word in re.findall(r"(?:^|[;,] )([0-9a-f]{2}) ([A-Z]\w+)", cell):
            found[("CHANNEL_" if name == "Channel" else "AGENT_") + upper(word)] = int(number, 16)
        if begun and name not in ("Channel", "Agent", "Auth"):
            found[upper(name)] = int(begun[1], 16)
    return found


def resolutions_of(formats):
    text = section(formats, "Records").split("Resolutions:")[1].split("Which records")[0]
    return {upper(name): int(number, 16) for number, name in re.findall(r"(?:^|; )\s*([0-9a-f]{2}) ([A-Z]\w+)", text)}


def statuses_of(formats):
    """The names of errors in their order from 20, and the two that stand beside them."""
    text = section(formats, "The program's last line and status")
    names = [it.split()[0] for it in re.findall(r"`([^`]+)`", text.split("in this order from 20:")[1].split("Besides")[0])]
    found = {upper(name.replace("-", "_")): 20 + at for at, name in enumerate(names)}
    return {**found, "REVOKED": 42, "REKEY_KEY": 43}


def numbers_fit(header, formats):
    """What differs between the header's numbers and the document's."""
    renamed = {"ANNOUNCED": "HOST_KEYS_ANNOUNCED"}
    unnamed = {"SIGN_KEY", "SIGN_CERTIFICATE", "PROMPTS", "GSSAPI_MECHANISM", "GSSAPI_TOKEN", "GSSAPI_ERROR", "GSSAPI_ERROR_TOKEN"}  # of the row Auth: numbers alone
    records = {renamed.get(name, name): number for name, number in records_of(formats).items()}
    wanted = {"EVENT": events_of(formats), "RECORD": records, "RESOLVED": resolutions_of(formats)}
    wrong = []
    for kind, document in wanted.items():
        ours = {name: number for name, number in numbers(header, f"SSHC_{kind}").items() if kind != "RECORD" or name not in unnamed}
        wrong += [f"SSHC_{kind}_{name}: the header has {ours.get(name)}, docs/FORMATS.md {document.get(name)}" for name in sorted({*ours, *document}) if ours.get(name) != document.get(name)]
    auth = sorted(number for name, number in numbers(header, "SSHC_RECORD").items() if name in unnamed)
    wrong += [] if auth == [5, 6, 7, 8, 9, 10, 11] else [f"SSHC_RECORD of what the user is asked for: {auth}"]
    sorts = sorted(numbers(header, "SSHC_ASK").values())
    table = section(formats, "Events").split("The sorts of CHANNEL")[1]
    listed = [int(it) for row in re.findall(r"^\| (\d+(?:, \d+)*) \|", table, re.M) for it in row.split(", ")]
    wrong += [] if sorts == listed else [f"SSHC_ASK: the header has {sorts}, docs/FORMATS.md {listed}"]
    ours = numbers(header, "SSHC")
    wrong += [f"SSHC_{name}: the header has {ours.get(name)}, docs/FORMATS.md {number}" for name, number in statuses_of(formats).items() if ours.get(name) != number]
    reasons = sorted(numbers(header, "SSHC_DISCONNECT").values())
    wrong += [] if reasons == list(range(1, 16)) else [f"SSHC_DISCONNECT: {reasons}"]
    return wrong


def main():
    header, crate, archive = sys.argv[1:]
    theirs, ours, there = declared(header), exported(crate), symbols(archive)
    formats = (pathlib.Path(crate).resolve().parent.parent / "docs" / "FORMATS.md").read_text()
    wrong = [f"{name}: the library has {ours.get(name)}, the header {theirs.get(name)}" for name in sorted({*theirs, *ours}) if theirs.get(name) != ours.get(name)]
    wrong += [f"{name}: in the header or the archive alone" for name in sorted({*theirs} ^ there)]
    wrong += [] if settings_fit(header, crate) else ["sshc_settings: other fields"]
    wrong += numbers_fit(header, formats)
    named = sum(len(numbers(header, f"SSHC_{kind}")) for kind in ("EVENT", "RECORD", "RESOLVED", "ASK", "DISCONNECT"))
    print("\n".join([*wrong, f"header: {len(theirs)} calls, {named} numbers, wrong: {len(wrong)}"]))
    return bool(wrong)


sys.exit(main())
