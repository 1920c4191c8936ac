"""A relay between a client and the service that loses some replies."""

import random
import socket
import threading

from stage import read_message


class Relay:
    """Passes messages on, and all replies but one in `one_in`, instead of which it ends the connection."""

    def __init__(self, port, seed, one_in):
        self.upstream, self.random, self.one_in = port, random.Random(seed), one_in
        self.lost = 0
        self.listener = socket.create_server(("127.0.0.1", 0), backlog=64)
        self.url = f"http://127.0.0.1:{self.listener.getsockname()[1]}"
        threading.Thread(target=self.accept, daemon=True).start()

    def close(self):
        self.listener.shutdown(socket.SHUT_RDWR)
        self.listener.close()

    def accept(self):
        while True:
            try:
                client, _ = self.listener.accept()
            except OSError:
                return
            threading.Thread(target=self.serve, args=(client,), daemon=True).start()

    def serve(self, client):
        try:
            with client, socket.create_connection(("127.0.0.1", self.upstream)) as service:
                while self.pass_on(client, service):
                    pass
        except OSError:
            pass

    def pass_on(self, client, service):
        """Whether the connection goes on after one message and its reply."""
        message = read_message(client)
        if message is None:
            return False
        service.sendall(message)
        reply = read_message(service)
        if reply is None:
            return False
        if self.random.randrange(self.one_in) == 0:
            self.lost += 1
            return False
        client.sendall(reply)
        return True
