#!/bin/sh
# The client's tests.
#
#   clients/c/tests/run.sh CLIENT [--with-servers]
#
# CLIENT is the program (`make -C clients/c OUT=out LIB=..` makes out/sazh). With Debian's openssh-server and
# python3-cryptography it runs an sshd as the user of this process on a high port, and servers that do wrong; it needs no
# root, and changes nothing outside temporary folders. --with-servers, as root, makes a user with a password and deletes it
# at the end, for logins against sshd, dropbear, tinysshd, asyncssh and paramiko, as far as they are installed.
# Where SAZHONTHIL_ARCHIVE names libsazhonthil.a the client is built once more, under AddressSanitizer and
# UndefinedBehaviorSanitizer, and that one is tested, with the library and its examples; CLIENT then meets the servers that
# do wrong and the uses alone.
set -eu
here=$(cd "$(dirname "$0")" && pwd)
client=$1 tested=$1 folder=""
export PYTHONDONTWRITEBYTECODE=1 PYTHONPATH="$here"
python3 -c 'import cryptography' 2> /dev/null || { echo "client: no tests, since python3-cryptography isn't installed"; exit 0; }
if [ -n "${SAZHONTHIL_ARCHIVE:-}" ]; then
  folder=$(mktemp -d)
  chmod 755 "$folder" # a test runs it as another user
  trap 'rm -rf "$folder"' EXIT
  make -s -C "$here/.." OUT="$folder" LIB="$SAZHONTHIL_ARCHIVE" CFLAGS="-g -O1 -fsanitize=address,undefined" HARDENING= LDHARDENING=
  tested=$folder/sazh
  python3 "$here/bad_servers.py" "$client"
fi
python3 "$here/bad_servers.py" "$tested"
if [ -x /usr/sbin/sshd ]; then
  [ "$client" = "$tested" ] || python3 "$here/uses.py" "$client"
  for file in uses faults hosts terminals; do python3 "$here/$file.py" "$tested"; done
  python3 "$here/library.py"
else
  echo "client: no tests against sshd, since openssh-server isn't installed"
fi
if [ "${2:-}" = --with-servers ]; then
  [ "$(id -u)" = 0 ] || { echo "client: --with-servers needs root" >&2; exit 1; }
  python3 "$here/logins.py" "$tested"
fi
