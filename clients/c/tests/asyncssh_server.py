"""asyncssh's server: PORT FOLDER USER PASSWORD. `echo WORDS` prints them, `cat` copies, `exit N` ends so."""
import asyncio
import sys

import asyncssh

PORT, FOLDER, USER, PASSWORD = int(sys.argv[1]), *sys.argv[2:5]


class Server(asyncssh.SSHServer):
    def password_auth_supported(self):
        return True

    def validate_password(self, user, password):
        return user == USER and password == PASSWORD


async def handle(process):
    word, _, rest = process.command.partition(" ")
    if word == "cat":
        while data := await process.stdin.read(65536):
            process.stdout.write(data)
    elif word == "echo":
        process.stdout.write(rest.encode() + b"\n")
    process.exit(int(rest) if word == "exit" else 0)


async def main():
    await asyncssh.create_server(
        Server, "127.0.0.1", PORT, server_host_keys=[f"{FOLDER}/host_ed25519"], authorized_client_keys=f"{FOLDER}/authorized_keys",
        process_factory=handle, encoding=None,
    )
    await asyncio.Event().wait()


asyncio.run(main())
