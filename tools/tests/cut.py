"""A door to a server that is cut in the middle."""

import contextlib
import os
import socket
import threading

from .server import PORT

PORT_FILE = f".s.PGSQL.{PORT}"


class CutDoor:
    """A Unix socket that hands bytes on to a server, and closes both ends once the client has sent so many."""

    def __init__(self, room, server_room, most):
        self.server_path, self.most = os.path.join(server_room, PORT_FILE), most
        self.door = socket.socket(socket.AF_UNIX)
        self.door.bind(os.path.join(room, PORT_FILE))
        self.door.listen()
        self.sent = 0
        self.thread = threading.Thread(target=self.run, daemon=True)
        self.thread.start()

    def run(self):
        client, _ = self.door.accept()
        server = socket.socket(socket.AF_UNIX)
        server.connect(self.server_path)
        back = threading.Thread(target=self.hand_back, args=(server, client), daemon=True)
        back.start()
        while piece := client.recv(4096):
            if self.sent + len(piece) > self.most:
                break
            server.sendall(piece)
            self.sent += len(piece)
        for end in (server, client):
            with contextlib.suppress(OSError):
                end.shutdown(socket.SHUT_RDWR)
        back.join()
        server.close()
        client.close()

    def hand_back(self, server, client):
        try:
            while piece := server.recv(4096):
                client.sendall(piece)
        except OSError:
            pass  # (it is cut)

    def close(self):
        self.thread.join(10)
        self.door.close()
