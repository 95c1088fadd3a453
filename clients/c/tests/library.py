#!/usr/bin/env python3
"""The library from C, under AddressSanitizer: its examples, and calls in their order and out of it. Builds with the archive
that SAZHONTHIL_ARCHIVE names, and passes where there is none.

    library.py"""
import glob
import os
import shutil
import subprocess
import sys

import bad_servers
from local_sshd import Answering, Place, run_all, want

HERE = os.path.dirname(os.path.abspath(__file__))
BINDINGS = os.path.abspath(f"{HERE}/../../../bindings")
ARCHIVE = os.environ.get("SAZHONTHIL_ARCHIVE")


def built(place, source, *more):
    program = place.path(os.path.basename(source)[:-2])
    library = place.path("libsazhonthil_ssh.a")
    if not os.path.exists(library):
        subprocess.run(["make", "-s", "-C", f"{BINDINGS}/ssh", f"OUT={place.folder}", "CFLAGS=-g -O1 -fsanitize=address,undefined", "HARDENING="], check=True)
    words = ["cc", "-std=c11", "-g", "-Wall", "-Wextra", "-Wpedantic", "-fsanitize=address,undefined", f"-I{BINDINGS}/include", source, f"{BINDINGS}/runtime/runtime.c", library, ARCHIVE]
    subprocess.run([*words, *more, "-lcrypto", "-o", program], check=True)
    return program


def the_header_stands_alone(place):
    for name in ("sazhonthil", "sazhonthil_ssh"):
        one = place.write("one.c", f"#include <{name}.h>\nint main(void) {{ return 0; }}\n")
        for words in (["cc", "-std=c11"], ["cc", "-std=c99"], ["c++", "-x", "c++", "-std=c++11"]):
            if shutil.which(words[0]):
                subprocess.run([*words, "-Wall", "-Wextra", "-Wpedantic", "-Werror", f"-I{BINDINGS}/include", "-c", one, "-o", "/dev/null"], check=True)


def examples_are_short(place):
    for path in glob.glob(f"{BINDINGS}/ssh/examples/*.c"):
        with open(path) as file:
            want(len(file.readlines()) <= 30, True, path)


def a_command_by_a_key_file(place):
    program = built(place, f"{BINDINGS}/ssh/examples/run_by_key.c")
    words = [program, "localhost", str(PORT), place.user, place.path("user_ed25519"), place.path("known_hosts"), "echo by a key; exit 4"]
    ran = subprocess.run(words, capture_output=True, timeout=60)
    want((ran.returncode, ran.stdout, ran.stderr), (4, b"by a key\n", b""), "the example")
    words[4] = place.make_key("unknown", "ed25519")
    ran = subprocess.run(words, capture_output=True, timeout=60)
    want((ran.returncode, ran.stderr.startswith(b"permission denied (")), (255, True), f"the example with another key: {ran.stderr}")


def a_command_by_a_password(place):
    program = built(place, f"{BINDINGS}/ssh/examples/run_by_password.c")
    listener = Answering(lambda line: bad_servers.Peer(line, "takes-a-password").run())
    path = place.write("asks", f"[127.0.0.1]:{listener.port} ssh-ed25519 {bad_servers.host_line()}\n")
    for password, wanted in ((b"secret\n", (0, b"well\n")), (b"other\n", (255, b""))):
        ran = subprocess.run([program, "127.0.0.1", str(listener.port), "me", path, "x"], input=password, capture_output=True, timeout=60)
        want((ran.returncode, ran.stdout), wanted, f"the example: {ran.stderr}")


def calls_in_and_out_of_order(place):
    program = built(place, f"{HERE}/library_calls.c")
    words = [program, str(PORT), place.user, place.path("user_ed25519"), place.make_key("another", "ed25519"), place.path("known_hosts")]
    ran = subprocess.run(words, capture_output=True, text=True, timeout=120)
    want((ran.returncode, ran.stdout, ran.stderr), (0, "library: calls in and out of order; wrong: 0\n", ""), "calls")


def each_request_for_memory_refused(place):
    program = built(place, f"{HERE}/refused_memory.c", "-Wl,--wrap=malloc,--wrap=calloc")
    words = [program, str(PORT), place.user, place.path("user_ed25519"), place.path("known_hosts"), "5"]
    ran = subprocess.run(words, capture_output=True, text=True, timeout=600)
    want((ran.returncode, ran.stderr, ran.stdout.endswith("once more: well\n")), (0, "", True), f"refused memory: {ran.stdout}")


def mutated_signatures_and_keys(place):
    program = built(place, f"{HERE}/mutated_signatures.c", f"-I{BINDINGS}/ssh")
    keys = [place.path("user_ed25519"), place.path("user_rsa"), *[place.make_key(f"curve{bits}", "ecdsa", "", "-b", str(bits)) for bits in (256, 384, 521)]]
    ran = subprocess.run([program, "400", *keys], capture_output=True, text=True, timeout=600)
    want((ran.returncode, ran.stdout, ran.stderr), (0, "library: 4000 mutated signatures; wrong: 0\n", ""), "mutated signatures")


if __name__ == "__main__":
    TESTS = [the_header_stands_alone, examples_are_short]
    TESTS += [a_command_by_a_key_file, a_command_by_a_password, calls_in_and_out_of_order, each_request_for_memory_refused, mutated_signatures_and_keys] if ARCHIVE else []
    with Place(sys.argv[0]) as place:
        PORT = place.sshd()
        place.known(PORT, "ed25519", "ecdsa", "rsa")
        sys.exit(run_all([it for it in TESTS if len(sys.argv) < 2 or it.__name__ in sys.argv[1:]], place, "library"))
