#!/usr/bin/env python3
"""Writes pages of the public calls, from the sources: what each does and what its contract says.

    python3 docs/api.py OUT

OUT gets index.html, with a search by name, a page for each crate that people use (FACES), and one for each definition
that a clause names or that such a definition rests on. The pages need no network. What is written depends on the sources
alone, and nothing of it belongs into the repository."""
import pathlib
import sys

sys.dont_write_bytecode = True
import api_pages
import api_sources

TOP = pathlib.Path(__file__).resolve().parent.parent
# The crates that people call. A crate below them has its exported items on the page of the first that exports them.
FACES = (
    "sshc_wire sshc_key sshc_toy sshc_hosts sshc_hosts_openssh sshc_audit sshc_agent sshc_agent_core sshc_agent_shared"
    " sshc_ask sshc_proxy sshc_transport sshc_auth sshc_mux sshc_client sshc_handle sshc_handle_calls sshc_forward sshc_run"
    " sshc_run_script sazhonthil"
).split()


def write(out):
    """Writes the pages, and returns how many pages, items, clauses and definitions there are."""
    site = api_pages.Site(FACES)
    for path, text in api_pages.pages(site, api_sources.families(TOP / "crates.txt")).items():
        file = out / path
        file.parent.mkdir(parents=True, exist_ok=True)
        file.write_text(text, encoding="utf-8")
    return site.counts


def main():
    if len(sys.argv) != 2 or sys.argv[1].startswith("-"):
        sys.exit("usage: python3 docs/api.py OUT")
    counts = write(pathlib.Path(sys.argv[1]))
    print(", ".join(f"{count:,} {what}" for what, count in counts.items()))


if __name__ == "__main__":
    main()
