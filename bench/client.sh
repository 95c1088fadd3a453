#!/bin/sh
# The client in C (clients/c) beside Debian's ssh, against one sshd on the loopback, with the same cipher: bytes down and up,
# logins one after another, and the core's share of the client's instructions. As root; openssh-server and valgrind.
#
#   bench/client.sh CLIENT [MEGABYTES [LOGINS [ROUNDS]]]
#
# CLIENT: `make -C clients/c OUT=out`. It prints a line for each measurement: the best wall time of the rounds, the
# processor time of the program alone (user and system) in that round, and its most memory.
set -eu
here=$(cd "$(dirname "$0")" && pwd)
PYTHONDONTWRITEBYTECODE=1 PYTHONPATH="$here/../clients/c/tests" exec python3 "$here/client_rates.py" "$@"
