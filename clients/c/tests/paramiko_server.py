"""paramiko's server: PORT FOLDER USER PASSWORD. `echo WORDS` prints them, `cat` copies, `exit N` ends so."""
import socket
import sys
import threading

import paramiko

PORT, FOLDER, USER, PASSWORD = int(sys.argv[1]), *sys.argv[2:5]
HOST_KEY = paramiko.Ed25519Key(filename=f"{FOLDER}/host_ed25519")
with open(f"{FOLDER}/authorized_keys") as file:
    KEYS = {line.split()[1] for line in file}


class Server(paramiko.ServerInterface):
    def get_allowed_auths(self, username):
        return "publickey,password"

    def check_auth_password(self, username, password):
        return paramiko.AUTH_SUCCESSFUL if (username, password) == (USER, PASSWORD) else paramiko.AUTH_FAILED

    def check_auth_publickey(self, username, key):
        return paramiko.AUTH_SUCCESSFUL if username == USER and key.get_base64() in KEYS else paramiko.AUTH_FAILED

    def check_channel_request(self, kind, number):
        return paramiko.OPEN_SUCCEEDED

    def check_channel_exec_request(self, channel, command):
        threading.Thread(target=run, args=(channel, command.decode()), daemon=True).start()
        return True


def run(channel, command):
    word, _, rest = command.partition(" ")
    if word == "cat":
        while data := channel.recv(32768):
            channel.sendall(data)
    elif word == "echo":
        channel.sendall(rest.encode() + b"\n")
    channel.send_exit_status(int(rest) if word == "exit" else 0)
    channel.close()


def serve(line):
    try:
        transport = paramiko.Transport(line)
        transport.add_server_key(HOST_KEY)
        transport.start_server(server=Server())
        transport.join()
    except Exception:
        line.close()


listener = socket.create_server(("127.0.0.1", PORT))
while True:
    threading.Thread(target=serve, args=(listener.accept()[0],), daemon=True).start()
