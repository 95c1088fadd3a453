#!/usr/bin/env python3
"""Writes the rows of the agent proxy in crates/sshc_rows_formats (data/proxy and their part of stdout): what a client and an
agent send, and what has to come of it, worked by hand from draft-miller-ssh-agent, OpenSSH's PROTOCOL.agent and the README of sshc_proxy. Nothing here runs the proxy.

Usage: bench/proxy_rows.py, from the top of the repository
"""
import base64
import hashlib
import hmac
import struct

BLOBS = {
    "K1": "AAAAC3NzaC1lZDI1NTE5AAAAIJdD7y3aLq454yWBdwLWbieU1ebz9/cu7/QEXn9OIeZJ",
    "K2": "AAAAC3NzaC1lZDI1NTE5AAAAIA6rWI3G1sz07DnfFlrouTcysQlj2P+jpNSOEWD9OJ3X",
    "K3": "AAAAC3NzaC1lZDI1NTE5AAAAILIG2T/B0l0gaqj3puu510tu9N1OkQ4znY3LYuEm5zCF",
    "K4": "AAAAC3NzaC1lZDI1NTE5AAAAIK2pr+Bfus1hvPof4Wb/plZCzSbqadHH0u+/f4ODtKnE",
}
K1, K2, K3, K4 = (base64.b64decode(BLOBS[name]) for name in ("K1", "K2", "K3", "K4"))
LIMIT = 262144


def u32(n):
    return struct.pack(">I", n)


def string(body):
    return u32(len(body)) + body


def toy(key, body):
    return string(b"ssh-ed25519") + string(hmac.new(key, body, hashlib.sha1).digest())


def bind(host, session=b"id", signature=None, name=b"session-bind@openssh.com", flag=b"\0", rest=b""):
    signature = toy(host, session) if signature is None else signature
    return b"\x1b" + string(name) + string(host) + string(session) + string(signature) + flag + rest


def sign(key, body=b"bytes"):
    return b"\x0d" + string(key) + string(body) + u32(0)


def listing(*keys):
    return b"\x0c" + u32(len(keys)) + b"".join(string(key) + string(comment) for key, comment in keys)


LIST, FAIL, OK = b"\x0b", b"\x05", b"\x06"
SIGNED = b"\x0e" + string(b"a signature")


# ---- policies


def line(key, host):
    return f"allow {BLOBS[key]} {BLOBS[host]}"


def policies():
    yield "an-empty-text", "", "rules 0"
    yield "one-rule", line("K1", "K3"), "rules 1"
    yield "a-rule-and-a-line-end", line("K1", "K3") + "\n", "rules 1"
    yield "the-same-rule-twice", f"{line('K1', 'K3')}\n{line('K1', 'K3')}\n", "rules 2"
    yield "comments-and-empty-lines", f"# towards K3\n\n{line('K1', 'K3')}\n#\n{line('K2', 'K3')}\n", "rules 2"
    yield "the-first-bad-line-is-named", f"{line('K1', 'K3')}\n\ndeny\nallow\n", "bad 3"
    yield "a-space-before-a-comment", " # no comment\n", "bad 1"
    yield "a-space-alone", "\n \n", "bad 2"
    yield "a-carriage-return", line("K1", "K3") + "\r\n", "bad 1"
    yield "another-word", f"permit {BLOBS['K1']} {BLOBS['K3']}", "bad 1"
    yield "a-word-in-upper-case", f"ALLOW {BLOBS['K1']} {BLOBS['K3']}", "bad 1"
    yield "two-spaces", f"allow  {BLOBS['K1']} {BLOBS['K3']}", "bad 1"
    yield "a-space-at-the-end", line("K1", "K3") + " ", "bad 1"
    yield "a-tab", f"allow\t{BLOBS['K1']} {BLOBS['K3']}", "bad 1"
    yield "no-host", f"allow {BLOBS['K1']}", "bad 1"
    yield "a-third-key", f"{line('K1', 'K3')} {BLOBS['K2']}", "bad 1"
    yield "no-base64", f"allow {BLOBS['K1']} !", "bad 1"
    padded = base64.b64encode(string(b"ssh-rsa") + string(b"\3") + string(b"\x00\xc5")).decode()
    yield "a-padded-key", f"allow {padded} {BLOBS['K3']}", "rules 1" if padded.endswith("=") else "?"
    yield "without-its-padding", f"allow {padded.rstrip('=')} {BLOBS['K3']}", "bad 1"
    yield "bytes-behind-a-key", f"allow {base64.b64encode(K1 + b'x').decode()} {BLOBS['K3']}", "bad 1"
    yield "half-a-key", f"allow {base64.b64encode(K1[:30]).decode()} {BLOBS['K3']}", "bad 1"
    yield "an-empty-blob", f"allow  {BLOBS['K3']}", "bad 1"


# ---- steps of a core: (connection, sort, body), and outputs


def frame(body, conn=0):
    return f"{conn}:frame:{body.hex()}"


def answer(body, conn=0):
    return f"{conn}:answer:{body.hex()}"


def close(conn=0):
    return f"{conn}:close"


def forwarded(body):
    return f"forward:{string(body).hex()}"


def answered(body):
    return f"answer:{string(body).hex()}"


def steps():
    bound = (frame(bind(K3)), answered(OK))
    asked = (frame(LIST), forwarded(LIST))
    both = (listing((K1, b""), (K2, b"")))
    kept = bytes.fromhex("000000400c0000000100000033") + K1 + bytes(4)
    yield "nothing-bound-and-a-listing", "one", [asked, (answer(listing((K1, b""))), "answer:000000050c00000000")]
    yield "bound-and-a-listing", "one", [bound, asked, (answer(both), f"answer:{kept.hex()}")]
    yield "comments-and-order-stay", "two", [bound, asked,
        (answer(listing((K2, b"b"), (K4, b"c"), (K1, b"a"))), answered(listing((K2, b"b"), (K1, b"a"))))]
    yield "a-key-that-is-listed-twice", "one", [bound, asked,
        (answer(listing((K1, b"a"), (K1, b"b"))), answered(listing((K1, b"a"), (K1, b"b"))))]
    yield "bytes-behind-a-listing", "one", [bound, asked, (answer(listing((K1, b"")) + b"x"), answered(listing((K1, b""))))]
    yield "a-list-request-with-bytes-behind", "one", [bound, (frame(LIST + b"x"), forwarded(LIST + b"x"))]
    yield "a-listing-that-is-short", "one", [bound, asked, (answer(listing((K1, b""))[:-1]), answered(FAIL))]
    yield "a-listing-with-no-key", "one", [bound, asked, (answer(listing((b"no key", b""))), answered(FAIL))]
    yield "a-comment-that-is-no-text", "one", [bound, asked, (answer(listing((K1, b"\xff"))), answered(FAIL))]
    yield "a-failure-in-place-of-a-listing", "one", [bound, asked, (answer(FAIL), answered(FAIL))]
    yield "a-signature-in-place-of-a-listing", "one", [bound, asked, (answer(SIGNED), answered(FAIL))]
    yield "an-empty-answer-to-a-listing", "one", [bound, asked, (answer(b""), answered(FAIL))]
    signs = (frame(sign(K1)), forwarded(sign(K1)))
    yield "sign-with-an-allowed-key", "one", [bound, signs, (answer(SIGNED), answered(SIGNED))]
    yield "a-signature-with-bytes-behind", "one", [bound, signs, (answer(SIGNED + b"x"), answered(SIGNED + b"x"))]
    yield "a-request-with-bytes-behind", "one", [bound, (frame(sign(K1) + b"x"), forwarded(sign(K1) + b"x"))]
    yield "a-failure-in-place-of-a-signature", "one", [bound, signs, (answer(FAIL), answered(FAIL))]
    yield "a-listing-in-place-of-a-signature", "one", [bound, signs, (answer(listing((K1, b""))), answered(FAIL))]
    yield "an-empty-answer-to-a-sign-request", "one", [bound, signs, (answer(b""), answered(FAIL))]
    yield "sign-with-another-key", "one", [bound, (frame(sign(K2)), "answer:0000000105")]
    yield "sign-with-nothing-bound", "one", [(frame(sign(K1)), answered(FAIL))]
    yield "sign-with-a-blob-that-is-short", "one", [bound, (frame(b"\x0d" + u32(52) + K1), answered(FAIL))]
    yield "sign-with-no-blob", "one", [bound, (frame(b"\x0d"), answered(FAIL))]
    yield "sign-with-a-cut-key", "one", [bound, (frame(sign(K1[:-1])), answered(FAIL))]
    other = (frame(bind(K2)), answered(OK))
    yield "another-host-bound-too", "one", [bound, other, (frame(sign(K1)), "answer:0000000105")]
    yield "the-other-host-first", "one", [other, bound, (frame(sign(K1)), answered(FAIL))]
    yield "a-key-for-both-hosts", "two", [bound, other, (frame(sign(K2)), forwarded(sign(K2)))]
    yield "a-listing-for-both-hosts", "two", [bound, other, asked, (answer(both), answered(listing((K2, b""))))]
    yield "the-same-host-bound-twice", "one", [bound, bound, signs]
    forged = (frame(bind(K3, signature=toy(K2, b"id"))), answered(FAIL))
    yield "a-forged-binding", "one", [forged, asked, (answer(listing((K1, b""))), answered(listing()))]
    yield "a-forged-binding-binds-nothing-more", "one", [bound, (frame(bind(K2, signature=toy(K3, b"id"))), answered(FAIL)), signs]
    yield "a-signature-over-another-session", "one", [(frame(bind(K3, signature=toy(K3, b"other"))), answered(FAIL))]
    yield "a-signature-with-bytes-behind-it", "one", [(frame(bind(K3, signature=toy(K3, b"id") + b"x")), answered(FAIL))]
    yield "a-binding-with-bytes-behind", "one", [(frame(bind(K3, rest=b"x")), answered(FAIL))]
    yield "a-binding-without-its-flag", "one", [(frame(bind(K3, flag=b"")), answered(FAIL))]
    yield "a-binding-for-forwarding", "one", [(frame(bind(K3, flag=b"\1")), answered(OK)), signs]
    yield "a-binding-to-a-key-with-bytes-behind", "one", [(frame(bind(K3 + b"x", signature=toy(K3 + b"x", b"id"))), answered(FAIL))]
    yield "a-binding-to-no-key", "one", [(frame(bind(b"key", signature=toy(b"key", b"id"))), answered(FAIL))]
    yield "an-extension-of-another-name", "one", [(frame(bind(K3, name=b"session-bind@openssh.org")), answered(FAIL))]
    yield "an-extension-without-a-name", "one", [(frame(b"\x1b"), answered(FAIL))]
    yield "an-empty-frame", "one", [(frame(b""), answered(FAIL))]
    for number in (1, 5, 12, 14, 17, 18, 19, 20, 21, 22, 23, 25, 26, 29, 255):
        yield f"a-frame-of-type-{number}", "one", [(frame(bytes([number])), answered(FAIL))]
    yield "an-answer-that-is-not-awaited", "one", [bound, (answer(SIGNED), "nothing"), signs]
    yield "an-answer-before-any-frame", "one", [(answer(listing((K1, b""))), "nothing")]
    yield "a-frame-while-an-answer-is-awaited", "one", [bound, signs, (frame(LIST), "nothing"), (answer(SIGNED), answered(SIGNED))]
    yield "a-binding-while-an-answer-is-awaited", "one", [asked, (frame(bind(K3)), "nothing"), (answer(listing((K1, b""))), answered(listing()))]
    yield "a-second-answer", "one", [bound, signs, (answer(SIGNED), answered(SIGNED)), (answer(SIGNED), "nothing")]
    yield "a-close-forgets-the-hosts", "one", [bound, (close(), "nothing"), (frame(sign(K1)), answered(FAIL))]
    yield "a-close-forgets-what-is-awaited", "one", [bound, signs, (close(), "nothing"), (answer(SIGNED), "nothing")]
    yield "connections-are-apart", "one", [bound, (frame(sign(K1), 1), answered(FAIL)), (frame(bind(K3), 1), answered(OK)),
        (frame(sign(K1), 1), forwarded(sign(K1))), (answer(SIGNED), "nothing"), signs, (close(1), "nothing"), (answer(SIGNED), answered(SIGNED))]
    yield "an-empty-policy", "none", [bound, (frame(sign(K1)), answered(FAIL)), asked, (answer(both), answered(listing()))]


# ---- runs: the client's bytes with failing reads and writes, the agent's, what is written to both, the result


def run(name, policy, client, agent, to_client, to_agent, result, client_fails=("", ""), agent_fails=("", "")):
    texts = lambda parts: "".join(string(part).hex() if isinstance(part, bytes) else part for part in parts)
    return [name, policy, texts(client), *client_fails, texts(agent), *agent_fails, texts(to_client), texts(to_agent), result]


def runs():
    yield run("nothing", "one", [], [], [], [], "ok")
    yield run("a-listing-with-nothing-bound", "one", [LIST], [listing((K1, b""))], [listing()], [LIST], "ok")
    whole = [bind(K3), LIST, sign(K1), sign(K2)]
    says = [listing((K1, b"a"), (K2, b"b")), SIGNED]
    yield run("each-kind-of-frame", "one", whole, says, [OK, listing((K1, b"a")), SIGNED, FAIL], [LIST, sign(K1)], "ok")
    yield run("an-empty-frame", "one", [b"", bind(K3)], [], [FAIL, OK], [], "ok")
    yield run("a-cut-length", "one", [bind(K3), "0000"], [], [OK], [], "UnexpectedEnd")
    yield run("a-length-and-no-frame", "one", ["00000001"], [], [], [], "UnexpectedEnd")
    yield run("a-cut-frame", "one", [bind(K3), "000000020b"], [], [OK], [], "UnexpectedEnd")
    yield run("an-agent-that-ends-before-its-answer", "one", [LIST, LIST], [], [], [LIST], "UnexpectedEnd")
    yield run("an-agent-that-ends-in-a-length", "one", [LIST], ["000000"], [], [LIST], "UnexpectedEnd")
    yield run("an-agent-that-ends-in-its-answer", "one", [LIST], ["000000050c0000"], [], [LIST], "UnexpectedEnd")
    yield run("an-agent-that-ends-later", "one", [bind(K3), LIST, LIST], [listing((K1, b""))], [OK, listing((K1, b""))], [LIST, LIST], "UnexpectedEnd")
    yield run("an-agent-that-is-not-asked", "one", [bind(K3), sign(K2)], ["00"], [OK, FAIL], [], "ok")
    yield run("an-answer-that-was-not-asked-for", "one", [LIST], [listing((K1, b"")), SIGNED], [listing()], [LIST], "ok")
    yield run("a-length-above-the-limit", "one", [bind(K3), u32(LIMIT + 1).hex() + "0b"], [], [OK], [], "TooLong")
    yield run("a-length-of-four-gigabytes", "one", ["ffffffff"], [], [], [], "TooLong")
    yield run("an-answer-above-the-limit", "one", [LIST], [u32(LIMIT + 1).hex()], [], [LIST], "TooLong")
    yield run("a-length-at-the-limit-is-read", "one", [u32(LIMIT).hex() + "0b"], [], [], [], "UnexpectedEnd")
    yield run("a-failing-first-read", "one", [LIST], [], [], [], "ClientFault", client_fails=("0", ""))
    yield run("a-failing-read-of-a-frame", "one", [LIST], [], [], [], "ClientFault", client_fails=("1", ""))
    yield run("a-failing-read-at-the-end", "one", [bind(K3)], [], [OK], [], "ClientFault", client_fails=("2", ""))
    yield run("a-failing-write-to-the-client", "one", [bind(K3), LIST], [], [], [], "ClientFault", client_fails=("", "0"))
    yield run("a-failing-write-to-the-client-later", "one", [bind(K3), LIST], [listing((K1, b""))], [OK], [LIST], "ClientFault", client_fails=("", "1"))
    yield run("a-failing-write-to-the-agent", "one", [bind(K3), LIST], [listing((K1, b""))], [OK], [], "AgentFault", agent_fails=("", "0"))
    yield run("a-failing-read-of-the-agent", "one", [bind(K3), LIST], [listing((K1, b""))], [OK], [LIST], "AgentFault", agent_fails=("0", ""))
    yield run("a-failing-read-of-an-answer", "one", [bind(K3), LIST], [listing((K1, b""))], [OK], [LIST], "AgentFault", agent_fails=("1", ""))


# ---- words


def words():
    text = lambda parts: "".join(string(part).hex() for part in parts)
    says = lambda line: line.encode().hex()
    asks = text([bind(K3), LIST])
    lists = text([listing((K1, b""), (K2, b""))])
    got = text([OK, listing((K1, b""))])
    yield "no-words", "", "opens", "", "", "", "", says("error words\n"), "2"
    yield "one-word", "socket", "opens", "", "", "", "", says("error words\n"), "2"
    yield "three-words", "socket one more", "opens", "", "", "", "", says("error words\n"), "2"
    yield "words-that-cannot-be-said", "socket", "opens", "", "", "0", "", "", "21"
    yield "served", "socket one", "opens", asks, "", "", lists, got, "0"
    yield "no-file", "socket absent", "opens", asks, "", "", lists, "", "3"
    yield "a-folder", "socket .", "opens", asks, "", "", lists, "", "3"
    yield "a-policy-that-is-no-text", "socket latin", "opens", asks, "", "", lists, "", "3"
    yield "a-bad-policy", "socket bad", "opens", asks, "", "", lists, says("error policy 3\n"), "5"
    yield "a-bad-policy-that-cannot-be-said", "socket bad", "opens", asks, "", "0", lists, "", "21"
    yield "no-socket", "socket one", "missing", asks, "", "", lists, "", "22"
    yield "a-socket-that-fails", "socket one", "fails", asks, "", "", lists, "", "22"
    yield "a-client-that-fails", "socket one", "opens", asks, "0", "", lists, "", "21"
    yield "a-length-above-the-limit", "socket one", "opens", u32(LIMIT + 1).hex(), "", "", lists, "", "24"
    yield "a-client-that-ends-in-a-frame", "socket one", "opens", asks[:-1 * 2], "", "", lists, text([OK]), "25"
    yield "an-agent-that-ends", "socket one", "opens", asks, "", "", "", text([OK]), "25"


# policies by the names of their files
FILES = {
    "one": (line("K1", "K3") + "\n").encode(),
    "two": ("\n".join([line("K1", "K3"), line("K2", "K3"), line("K2", "K2")]) + "\n").encode(),
    "none": b"# nothing\n",
    "bad": (line("K1", "K3") + "\n\nallow\n").encode(),
    "latin": b"# \xff\n",
}


def in_folder(policy):
    """A policy's path, from where the program runs."""
    return f"proxy/{policy}"


def with_path(given):
    """A program's arguments, of which the second is a policy."""
    first, _, policy = given.partition(" ")
    return f"{first} {in_folder(policy)}" if policy in FILES else given


def told(table, names):
    """The part of stdout for a table."""
    return f"== {table}\n" + "".join(f"ok {name}\n" for name in names)


def main():
    folder = "crates/sshc_rows_formats"
    tables = {
        "policies": [(name, text.encode().hex(), said) for name, text, said in policies()],
        "steps": [(name, in_folder(policy), " ".join(given for given, _ in rows), " ".join(said for _, said in rows)) for name, policy, rows in steps()],
        "runs": [(name, in_folder(policy), *rest) for name, policy, *rest in runs()],
        "words": [(name, with_path(given), *rest) for name, given, *rest in words()],
    }
    for table, rows in tables.items():
        with open(f"{folder}/data/proxy/{table}", "w") as file:
            file.write("# Written by bench/proxy_rows.py; src/ says what the fields are.\n")
            for row in rows:
                file.write(" | ".join(row) + "\n")
    with open(f"{folder}/stdout") as file:
        parts = ["== " + part for part in file.read().split("== ")[1:]]
    with open(f"{folder}/stdout", "w") as file:
        for part in parts:
            name = part[3 : part.index("\n")]
            file.write(told(name, [row[0] for row in tables[name]]) if name in tables else part)
    for name, body in FILES.items():
        with open(f"{folder}/data/proxy/{name}", "wb") as file:
            file.write(body)


if __name__ == "__main__":
    main()
