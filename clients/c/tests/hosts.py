"""Known hosts as OpenSSH reads them: patterns, case, blanks, marks, lines that can't be read, bytes that aren't text, and
which host keys are asked for first. Against an sshd that runs as this user. hosts.py CLIENT [TEST..]"""
import subprocess
import sys

from local_sshd import Place, run_all, want


def public(place, kind="ed25519", of="host"):
    return " ".join(place.read(f"{of}_{kind}.pub").split()[:2])


def met(place, lines, *more, host="localhost"):
    """Whether the host is taken for known by these lines (text or bytes), and what is said."""
    with open(place.path("lines"), "wb") as file:
        file.write(lines if isinstance(lines, bytes) else lines.encode())
    status, _, said = place.run(PORT, "-o", "StrictHostKeyChecking=yes", *more, host=host, known="lines")
    return status == 0, said


def is_met(place, lines, wanted, what, *more, host="localhost"):
    known, said = met(place, lines, *more, host=host)
    want(known, wanted, f"{what}: {said}")
    return said


ALIAS = ("-o", "HostKeyAlias=box.example")


def patterns(place):
    key = public(place)
    for names, known in (("*.example", True), ("*.example,!box.example", False), ("!box.example,*.example", False), ("!other.example,*.example", True),
                         ("b?x.example", True), ("b?ox.example", False), ("*", True), ("!*,box.example", False), ("other,*.example", True), ("*.example.org", False)):
        is_met(place, f"{names} {key}\n", known, names, *ALIAS)
    for names, known in ((f"[127.0.0.*]:{PORT}", True), (f"[127.*]:{PORT},![127.0.0.1]:{PORT}", False), ("127.0.0.?", True), (f"[127.0.0.*]:{PORT + 1}", False)):
        is_met(place, f"{names} {key}\n", known, names, host="127.0.0.1")


def names_in_any_case(place):
    key = public(place)
    is_met(place, f"BOX.Example {key}\n", True, "a name in upper case", *ALIAS)
    is_met(place, f"box.example {key}\n", True, "an alias in upper case", "-o", "HostKeyAlias=BOX.EXAMPLE")
    is_met(place, f"[LOCALHOST]:{PORT} {key}\n", True, "a name with a port", host="LocalHost")
    is_met(place, f"LocalHost {key}\n", True, "a line for the host at no port")


def blanks(place):
    kind, blob = public(place).split()
    for line in (f"box.example\t{kind}\t{blob}", f"box.example  {kind}  {blob}", f" \tbox.example {kind} {blob} a comment", f"box.example {kind} {blob}\r"):
        is_met(place, line + "\n", True, repr(line), *ALIAS)
    is_met(place, f"box.example {kind} {blob}", True, "a last line without its end", *ALIAS)


def lines_that_cant_be_read(place):
    key, blob = public(place), public(place).split()[1]
    for line in (f"box.example ssh-none {blob}", "box.example ssh-ed25519 AAAA", "box.example ssh-ed25519 !!", "box.example", "@none box.example ssh-ed25519 x",
                 f"box.example ssh-rsa {blob}"):
        is_met(place, f"{line}\nbox.example {key}\n", True, f"after {line!r}", *ALIAS)
        is_met(place, f"{line}\n", False, f"{line!r} alone", *ALIAS)


def bytes_that_arent_text(place):
    key = public(place).encode()
    is_met(place, b"# caf\xe9 \xff\nother\xfe ssh-ed25519 AAAA\nbox.example " + key + b" \xe9\n", True, "bytes before the line", *ALIAS)
    with open(place.path("latin"), "wb") as file:
        file.write(b"# caf\xe9")
    want(place.run(PORT, "-o", "StrictHostKeyChecking=accept-new", known="latin")[0], 0, "a key is learned to such a file")
    with open(place.path("latin"), "rb") as file:
        want(file.read(), b"# caf\xe9\n[localhost]:%d %s\n" % (PORT, key), "its line stands on its own")
    want(place.run(PORT, "-o", "StrictHostKeyChecking=yes", known="latin")[0], 0, "and is known from then on")


def hashed_names(place):
    place.known(PORT, "ed25519", name="hashed", hashed=True)
    want(place.run(PORT, "-o", "StrictHostKeyChecking=yes", host="LOCALHOST", known="hashed")[0], 0, "a hashed name, and the host in upper case")
    place.write("hashed2", f"box.example {public(place, 'rsa')}\n")
    subprocess.run(["ssh-keygen", "-q", "-H", "-f", place.path("hashed2")], check=True, capture_output=True)
    want(place.run(PORT, *ALIAS, "-o", "StrictHostKeyChecking=yes", known="hashed2")[0], 0, "a hashed name with a key of another type")


def revoked_keys(place):
    key = public(place)
    first = f"box.example {key}\n"
    for line in (f"@revoked box.example {key}", f"@revoked BOX.EXAMPLE {key}", f"@revoked  box.example {key}", f"@revoked *.example {key}", f"@revoked * {key}"):
        said = is_met(place, f"{first}{line}\n", False, line, *ALIAS)
        want(f"{place.path('lines')} line 2 revokes it" in said, True, f"{line}: {said}")
        status, _, said = place.run(PORT, *ALIAS, "-o", "StrictHostKeyChecking=accept-new", known="lines")
        want((status, place.read("lines")), (255, f"{first}{line}\n"), f"it isn't learned either: {said}")
    is_met(place, f"{first}@revoked other.example {key}\n", True, "revoked for another host", *ALIAS)


def changed_keys(place):
    place.make_key("other_ed25519", "ed25519")
    place.make_key("other_rsa", "rsa")
    for kind in ("ed25519", "rsa"):
        said = is_met(place, f"# none\n\n*.example\t{public(place, kind, 'other')}\n", False, f"another key, {kind}", *ALIAS)
        want(f"{place.path('lines')} line 3 has another key" in said, True, said)
    place.write("first", "# one\n# two")
    place.write("second", f"other {public(place)}\nbox.example {public(place, 'ed25519', 'other')}\n")
    words = ("-o", f"UserKnownHostsFile={place.path('first')} {place.path('second')}")
    status, _, said = place.run(PORT, *words, *ALIAS, "-o", "StrictHostKeyChecking=accept-new")
    want((status, f"{place.path('second')} line 2 has" in said), (255, True), said)
    want(place.read("first"), "# one\n# two", "nothing is learned then")
    is_met(place, f"box.example {public(place, 'ed25519', 'other')}\nbox.example {public(place)}\n", True, "another key and the right one", *ALIAS)


def keys_that_are_asked_for_first(place):
    for lines, wanted in ((f"*.EXAMPLE\t{public(place, 'rsa')}\n", "rsa-sha2-512"), (f"BOX.example  {public(place, 'ecdsa')}\n", "ecdsa-sha2-nistp256"),
                          (f"box.example {public(place, 'rsa').replace('ssh-rsa', 'rsa-sha2-256', 1)}\n", "rsa-sha2-512"),
                          (f"box.example ssh-ed25519 AAAA\n* {public(place, 'ecdsa')}\n", "ecdsa-sha2-nistp256"),
                          (f"*,!box.example {public(place)}\nbox.example {public(place, 'rsa')}\n", "rsa-sha2-512"),
                          (f"@cert-authority * {public(place)}\nbox.example {public(place, 'rsa')}\n", "rsa-sha2-512")):
        said = is_met(place, lines, True, lines, "-v", *ALIAS)
        want(f"the host key is {'ssh-rsa' if wanted[:3] == 'rsa' else wanted} " in said, True, said)
    ported = f"[LocalHost]:{PORT} {public(place, 'ecdsa')}\nlocalhost {public(place)}\n"
    want("the host key is ecdsa" in is_met(place, ported, True, ported, "-v"), True, "the line for the port comes before that for the host")
    want("the host key is ssh-rsa" in is_met(place, f"localhost {public(place, 'rsa')}\n", True, "the host alone", "-v"), True, "the line for the host")


if __name__ == "__main__":
    TESTS = [patterns, names_in_any_case, blanks, lines_that_cant_be_read, bytes_that_arent_text, hashed_names, revoked_keys, changed_keys, keys_that_are_asked_for_first]
    with Place(sys.argv[1]) as place:
        PORT = place.sshd()
        sys.exit(run_all([it for it in TESTS if len(sys.argv) < 3 or it.__name__ in sys.argv[2:]], place, "hosts"))
