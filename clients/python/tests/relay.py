"""A relay between the client and the service that cuts connections at random."""

import random
import socket
import threading

from .fake import read_message

BEFORE, BEHIND, WITHIN, AFTER = "before the message", "behind it", "in the reply", "after it"


class Relay:
    """Hands messages on, and replies back, and cuts one connection in so many at a message."""

    def __init__(self, port, seed, one_in):
        self.upstream, self.random, self.one_in = port, random.Random(seed), one_in
        self.lock = threading.Lock()
        self.messages, self.cuts = 0, dict.fromkeys((BEFORE, BEHIND, WITHIN, AFTER), 0)
        self.listener = socket.create_server(("127.0.0.1", 0), backlog=128)
        self.url = f"http://127.0.0.1:{self.listener.getsockname()[1]}"
        threading.Thread(target=self.accept, daemon=True).start()

    def close(self):
        self.listener.shutdown(socket.SHUT_RDWR)
        self.listener.close()

    def accept(self):
        while True:
            try:
                client, _ = self.listener.accept()
            except OSError:
                return
            threading.Thread(target=self.hand_on, args=(client,), daemon=True).start()

    def draw(self):
        """Where this message's connection is cut, if it is."""
        with self.lock:
            self.messages += 1
            if self.random.randrange(self.one_in):
                return None
            cut = self.random.choice(list(self.cuts))
            self.cuts[cut] += 1
            return cut

    def hand_on(self, client):
        try:
            with client, socket.create_connection(("127.0.0.1", self.upstream)) as service:
                while self.hand_one(client, service):
                    pass
        except OSError:
            pass

    def hand_one(self, client, service):
        """Whether the connection goes on behind a message."""
        message = read_message(client)
        if message is None:
            return False
        cut = self.draw()
        if cut == BEFORE:
            return False
        service.sendall(message)
        if cut == BEHIND:
            return False
        reply = read_message(service)
        if reply is None:
            return False
        client.sendall(reply[:len(reply) // 2] if cut == WITHIN else reply)
        return cut is None
