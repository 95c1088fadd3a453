#!/usr/bin/env python3
"""The command line, which is ssh-agent's, by shells.

    starting.py AGENT"""
import os
import select
import signal
import subprocess
import time

from scratch import PLAIN, tests_of, until, want

# what root alone sees of the agent's process: its standard output, and its folder
SEEN = ["/dev/null", "/"] if os.geteuid() == 0 else []


def shell(scratch, script, env=None, program="sh"):
    """Runs a script with the agent as $AGENT; its status, standard output and standard error."""
    env = {**PLAIN, "AGENT": scratch.agent, "TMPDIR": scratch.folder, **(env or {})}
    ran = subprocess.run([program, "-c", script], capture_output=True, text=True, env=env, timeout=60, cwd=scratch.folder)
    return ran.returncode, ran.stdout, ran.stderr


def left(scratch):
    """The folders of sockets that are there."""
    return [name for name in os.listdir(scratch.folder) if name.startswith("ssh-")]


def by_eval(scratch):
    key = scratch.key("ed25519")
    script = f"""eval $("$AGENT") || exit 1
        ls -ld "${{SSH_AUTH_SOCK%/*}}" | cut -c1-10; ls -l "$SSH_AUTH_SOCK" | cut -c1-10
        ssh-add -q {key} && ssh-add -L | cut -d' ' -f3-
        [ "$(id -u)" != 0 ] || readlink /proc/$SSH_AGENT_PID/fd/1 /proc/$SSH_AGENT_PID/cwd
        eval $("$AGENT" -k); echo "${{SSH_AUTH_SOCK-unset}} ${{SSH_AGENT_PID-unset}}" """
    status, said, errors = shell(scratch, script, {"SHELL": "/bin/bash"})
    lines = said.splitlines()
    want((status, errors), (0, ""), "eval $(sazh-agent)")
    want([line for line in lines if not line.startswith("Agent pid")], ["drwx------", "srw-------", "my ed25519 key", *SEEN, "unset unset"], "what it says")
    until(lambda: not left(scratch), "the folder's removal after -k")


def lines_for_shells(scratch):
    for words, shell_name, begins in (("-s", "/bin/tcsh", "SSH_AUTH_SOCK="), ("-c", "/bin/sh", "setenv SSH_AUTH_SOCK "), ("", "/bin/tcsh", "setenv SSH_AUTH_SOCK "), ("", "", "SSH_AUTH_SOCK=")):
        status, said, _ = shell(scratch, f'"$AGENT" {words}', {"SHELL": shell_name})
        lines = said.splitlines()
        want((status, len(lines), lines[0].startswith(begins), lines[0].endswith(";")), (0, 3, True, True), f"the lines of {words!r} where SHELL is {shell_name!r}")
        number = lines[1].replace("=", " ").split(";")[0].split()[-1]
        want(lines[2], f"echo Agent pid {number};", "the last line")
        status, said, _ = shell(scratch, f'"$AGENT" {words} -k', {"SHELL": shell_name, "SSH_AGENT_PID": number})
        want((status, said.splitlines()[0]), (0, ("unsetenv" if begins.startswith("setenv") else "unset") + " SSH_AUTH_SOCK;"), "-k")
    until(lambda: not left(scratch), "the folders' removal")


def names_that_a_shell_reads(scratch):
    """A folder's name doesn't become a command."""
    os.mkdir(scratch.at("a 'b' $(touch evil) !;`touch evil`"))
    folder = scratch.at("a 'b' $(touch evil) !;`touch evil`")
    status, said, errors = shell(scratch, 'eval "$("$AGENT" -s)"; echo "$SSH_AUTH_SOCK"; ssh-add -l; "$AGENT" -k > /dev/null', {"TMPDIR": folder})
    want((status, folder in said, "no identities" in said), (0, True, True), f"a folder with marks of the shell: {said} {errors}")
    status, said, errors = shell(scratch, '"$AGENT" -c', {"TMPDIR": folder})
    want("\\!" in said, True, "a C shell's history")
    number = said.split("SSH_AGENT_PID ")[1].split(";")[0]
    os.kill(int(number), signal.SIGTERM)
    want(os.path.exists(scratch.at("evil")), False, "a command from a folder's name")
    until(lambda: not os.listdir(folder), "the folder's removal")


def with_a_command(scratch):
    status, said, errors = shell(scratch, '''"$AGENT" sh -c 'ssh-add -l; echo $SSH_AGENT_PID; pwd; exit 7' one two''')
    want((status, said.splitlines()[0], said.splitlines()[2]), (7, "The agent has no identities.", scratch.folder), f"a command: {errors}")
    until(lambda: not left(scratch), "the folder's removal after the command")
    number = int(said.splitlines()[1])
    until(lambda: not os.path.exists(f"/proc/{number}"), "the agent's end after the command")
    status, said, errors = shell(scratch, '"$AGENT" -a "$PWD/agent" -t 10 -- sh -c "echo \\$SSH_AUTH_SOCK" --help')
    want((status, said), (0, scratch.at("agent") + "\n"), f"a command with options of its own: {errors}")
    status, said, errors = shell(scratch, '"$AGENT" no-such-command')
    want((status, said, "no-such-command" in errors), (127, "", True), "a command that isn't there")
    until(lambda: not left(scratch) and not os.path.exists(scratch.at("agent")), "the sockets' removal")
    status, said, errors = shell(scratch, '''"$AGENT" sh -c 'kill -9 $$' ''')
    until(lambda: not left(scratch), "the folder's removal after a command that was killed")


def usage(scratch):
    for words in ("-h", "--help"):
        status, said, errors = shell(scratch, f'"$AGENT" {words}')
        want((status, said.startswith("usage: sazh-agent"), errors), (0, True, ""), words)
    for words in ("-x", "--what", "-t", "-t 1x", "-t ''", "-t -1", "-t 3000000000", "-t 99999999999999999999w", "-a", "-s -c", "-k -D", "-D true", "-s true", "-k true"):
        status, said, errors = shell(scratch, f'"$AGENT" {words}')
        want((status, said, "usage: sazh-agent" in errors), (1, "", True), words)
    for env in ({}, {"SSH_AGENT_PID": ""}, {"SSH_AGENT_PID": "1"}, {"SSH_AGENT_PID": "12x"}, {"SSH_AGENT_PID": "-5"}, {"SSH_AGENT_PID": "999999999999"}, {"SSH_AGENT_PID": "4194304"}):
        status, said, errors = shell(scratch, '"$AGENT" -k', env)
        want((status, said, errors.startswith("sazh-agent: ")), (1, "", True), f"-k with {env}")
    status, said, errors = shell(scratch, '"$AGENT"', {"TMPDIR": "/no/such/folder"})
    want((status, said, "/no/such/folder" in errors), (1, "", True), "a TMPDIR that isn't there")
    want(left(scratch), [], "folders")


def lifetimes_in_words(scratch):
    agent = scratch.start("-t", "1h30m")
    agent.add(scratch.key("ed25519"))
    want(len(agent.listing()), 1, "a key with a lifetime of 1h30m")
    agent.end()
    for words in ("1s", "0m1", "1S"):
        agent = scratch.start("-t", words)
        agent.add(scratch.key("ed25519"))
        time.sleep(1.2)
        want(agent.listing(), [], f"a key with a lifetime of {words}, later")
        agent.end()


def debugging(scratch):
    """-d says what is done, and never a secret."""
    agent = scratch.start("-d")
    agent.add(scratch.key("ed25519"))
    want(agent.signs("ed25519"), True, "a signature")
    agent.passphrase("-x", "a word to lock by")
    agent.end()
    said = agent.error_text()
    want(("message 17: answered" in said, "message 13: answered" in said, "word to lock by" in said), (True, True, False), f"what -d says: {said}")


def lets_go(scratch):
    """The agent in the background holds no descriptor of whoever started it."""
    ours, theirs = os.pipe()
    ran = subprocess.run([scratch.agent, "-s"], pass_fds=[theirs], capture_output=True, text=True, env={**PLAIN, "TMPDIR": scratch.folder}, timeout=60)
    os.close(theirs)
    want(bool(select.select([ours], [], [], 20)[0]), True, "the end of a pipe of whoever started it")
    os.close(ours)
    number = int(ran.stdout.split("SSH_AGENT_PID=")[1].split(";")[0])
    os.kill(number, signal.SIGTERM)
    until(lambda: not left(scratch), "the folder's removal")


def relative_socket(scratch):
    status, said, errors = shell(scratch, 'eval $("$AGENT" -s -a agent); echo $SSH_AUTH_SOCK; cd /; ssh-add -l; "$AGENT" -k > /dev/null')
    want((scratch.at("agent") in said, "no identities" in said), (True, True), f"a socket by a relative path: {said} {errors}")
    until(lambda: not os.path.exists(scratch.at("agent")), "its removal")


if __name__ == "__main__":
    tests_of([by_eval, lines_for_shells, names_that_a_shell_reads, with_a_command, usage, lifetimes_in_words, debugging, lets_go, relative_socket])
