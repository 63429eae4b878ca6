"""A proxy that cuts connections, for the programs beside this one."""

import itertools
import socket
import threading


MANY = 9000  # bytes


class Listener:
    """A socket at a path, each connection of which a thread of its own serves, told its number from 0; `count` is how many came."""

    def __init__(self, path, serve):
        self.path = path
        self.socket = socket.socket(socket.AF_UNIX)
        self.socket.bind(path)
        self.socket.listen(99)
        self.serve = serve
        self.count = 0
        threading.Thread(target=self.accept, daemon=True).start()

    def accept(self):
        for number in itertools.count():
            peer, _ = self.socket.accept()
            self.count = number + 1
            threading.Thread(target=self.serve, args=(peer, number), daemon=True).start()


class Proxy:
    """Hands on what its peers and a server say, each connection until the server has said so many bytes: those of its number, and
    behind them many. `cuts` has the numbers of those that it cut."""

    def __init__(self, path, server_path, most):
        self.server_path, self.most, self.cuts = server_path, most, []
        self.listener = Listener(path, self.serve)

    def serve(self, peer, number):
        server = socket.socket(socket.AF_UNIX)
        try:
            server.connect(self.server_path)
            threading.Thread(target=hand_on, args=(peer, server), daemon=True).start()
            if hand_on(server, peer, self.most[number] if number < len(self.most) else MANY):
                self.cuts.append(number)
        except OSError:
            pass
        shut(server, peer)


def hand_on(source, sink, most=None):
    """Hands on so many bytes at most. Whether it ended by that."""
    try:
        while most != 0:
            piece = source.recv(4096 if most is None else min(most, 4096))
            if not piece:
                return False
            sink.sendall(piece)
            most = None if most is None else most - len(piece)
        return True
    except OSError:
        return False


def shut(*peers):
    """Ends these for both sides."""
    for peer in peers:
        try:
            peer.shutdown(socket.SHUT_RDWR)
        except OSError:
            pass  # it had ended already
        peer.close()
