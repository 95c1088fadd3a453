"""asyncssh's server: PORT FOLDER USER PASSWORD. Its commands: `cat` copies, `echo WORDS` prints, `warn WORDS` prints to the
standard error, `exit N` and `die SIGNAL` end so."""
import asyncio
import sys

import asyncssh

PORT, FOLDER, USER, PASSWORD = int(sys.argv[1]), *sys.argv[2:5]


class Server(asyncssh.SSHServer):
    def password_auth_supported(self):
        return True

    def validate_password(self, user, password):
        return user == USER and password == PASSWORD

    def connection_requested(self, host, port, from_host, from_port):
        return True

    def server_requested(self, host, port):
        return True


async def handle(process):
    word, _, rest = (process.command or "").partition(" ")
    if word == "cat":
        while data := await process.stdin.read(65536):
            process.stdout.write(data)
            await process.stdout.drain()
    elif word == "echo":
        process.stdout.write(rest.encode() + b"\n")
    elif word == "warn":
        process.stderr.write(rest.encode() + b"\n")
    if word == "die":
        process.exit_with_signal(rest)
    else:
        process.exit(int(rest) if word == "exit" else 0)


async def main():
    await asyncssh.create_server(
        Server, "127.0.0.1", PORT, server_host_keys=[f"{FOLDER}/host_ed25519"], authorized_client_keys=f"{FOLDER}/authorized_keys",
        process_factory=handle, encoding=None, sftp_factory=True,
    )
    await asyncio.Event().wait()


asyncio.run(main())
