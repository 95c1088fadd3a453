#!/bin/sh
# Builds and tests what calls the C library, with Debian's packages alone (gcc, python3, cargo, golang-go; the client in C:
# make, libssl-dev; its tests: python3-cryptography, openssh-server). A language whose tools are missing is passed over, and
# the last line says what was left out.
#
#   bindings/build.sh [--with-servers] [OUT [ARCHIVE]]
#
# OUT is a folder for what is made (bindings/out), ARCHIVE the library: crates/sazhonthil/out/libsazhonthil.a, which
# `rt lib` makes in crates/sazhonthil once the crate is proved, and bindings/archive.py from what `rt ci` kept.
#
# With --with-servers, as root, the client also logs in to servers of this machine's packages. For that a user sshc-client
# is made, with a password, and removed again; it stops where there is one already. Without the flag no user is touched.
# The status is 3 where a tool is missing without which nothing can be built.
set -eu
servers=no
if [ "${1:-}" = --with-servers ]; then
  servers=yes
  shift
  [ "$(id -u)" = 0 ] && [ -x /usr/sbin/sshd ] || { echo "--with-servers wants root and /usr/sbin/sshd" >&2; exit 2; }
fi
case ${1:-} in -*) echo "build.sh [--with-servers] [OUT [ARCHIVE]]" >&2; exit 2 ;; esac
here=$(cd "$(dirname "$0")" && pwd)
top=$(dirname "$here")
out=${1:-$here/out}
archive=${2:-$top/crates/sazhonthil/out/libsazhonthil.a}
rows=$top/crates/sshc_rows_session/data/runs
mkdir -p "$out"
out=$(cd "$out" && pwd)
export PYTHONDONTWRITEBYTECODE=1
[ -f "$archive" ] || { echo "no $archive: run 'rt lib' in crates/sazhonthil" >&2; exit 2; }
cp "$archive" "$out/libsazhonthil.a"
left=""
for tool in python3 cc ar nm; do
  command -v $tool > /dev/null || { echo "bindings: passed over, since there is no $tool"; exit 3; }
done
sanitizers=-fsanitize=address,undefined
echo "int main(void) { return 0; }" > "$out/empty.c"
cc $sanitizers "$out/empty.c" -o "$out/empty" 2> /dev/null && "$out/empty" || { echo "bindings: passed over, since cc has no AddressSanitizer"; exit 3; }

# the formats in Python, without the library
(cd "$here/python" && python3 -m unittest tests.test_events tests.test_formats tests.test_records tests.test_show) > "$out/formats.log" 2>&1 || { cat "$out/formats.log"; exit 1; }
done=" formats"

python3 "$here/check_header.py" "$here/include/sazhonthil.h" "$top/crates/sazhonthil" "$out/libsazhonthil.a"

cc -O2 -fPIC -Wall -Wextra -c "$here/runtime/runtime.c" -o "$out/runtime.o"
rm -f "$out/libsazhonthil_runtime.a"
ar rcs "$out/libsazhonthil_runtime.a" "$out/runtime.o"
mkdir -p "$out/shared"
cc -shared -o "$out/shared/libsazhonthil.so" "$out/runtime.o" -Wl,--whole-archive "$out/libsazhonthil.a" -Wl,--no-whole-archive

# C, under AddressSanitizer with its search for leaks: the worked rows, misuse, and each request for memory refused once
python3 "$here/tests/rows.py" "$rows" --dump > "$out/rows"
for name in rows misuse; do
  cc -g -O1 -Wall -Wextra $sanitizers -DFAIL_AT -I"$here/include" "$here/tests/$name.c" "$here/runtime/runtime.c" "$out/libsazhonthil.a" -o "$out/$name.by"
done
"$out/rows.by" < "$out/rows"
"$out/rows.by" 100000 < "$out/rows"
"$out/misuse.by"
done="$done C"

export SAZHONTHIL="$out/shared/libsazhonthil.so" SAZHONTHIL_LIB="$out" ROWS="$out/rows"
python3 "$here/tests/rows.py" "$rows"
done="$done Python"

if command -v cargo > /dev/null; then
  (cd "$here/rust" && CARGO_TARGET_DIR="$out/target" cargo test --offline -q) > "$out/rust.log" 2>&1 || { cat "$out/rust.log"; exit 1; }
  grep 'test result: ok. [1-9]' "$out/rust.log" | sed 's/;.*//; s/test result:/rust:/'
  done="$done Rust"
else
  left="$left Rust"
fi

python3 "$here/tests/snippets.py" "$here/README.md" "$out"
done="$done snippets"

if [ -f /usr/include/openssl/evp.h ] && command -v make > /dev/null; then
  # connections from Python, by the SSH library as one shared object, and the wheel with it
  make -s -C "$here/ssh" OUT="$out/shared" LIB="$out/libsazhonthil.a" shared
  export SAZHONTHIL_SSH="$out/shared/libsazhonthil_ssh.so"
  (cd "$here/python" && python3 -m unittest) > "$out/connections.log" 2>&1 || { cat "$out/connections.log"; exit 1; }
  tail -n 3 "$out/connections.log" | tr '\n' ' ' | sed 's/^/python: /; s/ *$/\n/'
  python3 "$here/python/build_wheel.py" "$out" > /dev/null
  # the same once more under AddressSanitizer and UndefinedBehaviorSanitizer, which the interpreter has to load first
  make -s -C "$here/ssh" OUT="$out/sanitized" LIB="$out/libsazhonthil.a" CFLAGS="-g -O1 $sanitizers" HARDENING=-fPIC LDHARDENING= shared
  (cd "$here/python" && LD_PRELOAD="$(cc -print-file-name=libasan.so):$(cc -print-file-name=libubsan.so)" ASAN_OPTIONS=detect_leaks=0 \
    UBSAN_OPTIONS=halt_on_error=1 SAZHONTHIL_SSH="$out/sanitized/libsazhonthil_ssh.so" \
    python3 -c 'import os, unittest; del os.environ["LD_PRELOAD"]; unittest.main(module=None)' tests.test_connect tests.test_aio tests.test_library) \
    > "$out/sanitized.log" 2>&1 || { cat "$out/sanitized.log"; exit 1; }
  done="$done connections"
  if command -v go > /dev/null; then
    # the sources name bindings/out/shared as the library's folder
    (cd "$here/go" && CGO_LDFLAGS="-L$out/shared -Wl,-rpath,$out/shared" GOCACHE="$out/gocache" GOFLAGS=-mod=mod go test -v ./...) > "$out/go.log" 2>&1 || { cat "$out/go.log"; exit 1; }
    grep -o 'go: .* rows' "$out/go.log"
    echo "go: $(grep -c '^        --- PASS' "$out/go.log") rows of connections to servers"
    done="$done Go"
  else
    left="$left Go"
  fi
  if command -v cargo > /dev/null; then
    (cd "$here/rust_ssh" && SAZHONTHIL_SSH_LIB="$out/shared" CARGO_TARGET_DIR="$out/target" cargo test --offline -- --nocapture) > "$out/rust_ssh.log" 2>&1 || { cat "$out/rust_ssh.log"; exit 1; }
    echo "rust: $(grep -c '^on ' "$out/rust_ssh.log") times a test of connections on a server"
  fi
  make -s -C "$top/clients/c" OUT="$out" LIB="$out/libsazhonthil.a"
  with=""
  [ $servers = yes ] && with=--with-servers || left="$left logins (--with-servers)"
  SAZHONTHIL_ARCHIVE="$out/libsazhonthil.a" sh "$top/clients/c/tests/run.sh" "$out/sazh" $with
  done="$done client"
  make -s -C "$top/clients/agent" OUT="$out" LIB="$out/libsazhonthil.a" test
  done="$done agent"
else
  left="$left connections Go client agent"
fi
echo "bindings: all well:$done${left:+; left out:$left}"
