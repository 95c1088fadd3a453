#!/bin/sh
# Tests of an agent with Debian's openssh-client, on this machine's loopback alone: run.sh AGENT. Where AGENT ends in .by,
# as the Makefile names what it builds under AddressSanitizer, there is no run under valgrind.
set -eu
here=$(cd "$(dirname "$0")" && pwd)
export PYTHONDONTWRITEBYTECODE=1
command -v ssh-add > /dev/null || { echo "passed over: no ssh-add"; exit 0; }
parts="daily starting hostile beside logins"
case $1 in *.by) ;; *) parts="$parts valgrinded" ;; esac
for part in $parts; do
  echo "$part $1"
  python3 "$here/$part.py" "$1"
done
