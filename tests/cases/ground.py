"""What several cases stand on: a run of the program, and a server with its peers."""

import contextlib
import os
import subprocess
import tempfile
import time

from serving import MOST, Peer, Server, want

UNHEARD = b"rxline: cannot listen\n"
PUBLISH = '[[subject]]\nname = "s"\nkind = "publish"\n'
SCRIPT = b"JOIN s BUFFER DELAY 1\nPUB s a\nPUB s b\n"


@contextlib.contextmanager
def folder_with(config):
    """A folder with this configuration, in which the block runs."""
    with tempfile.TemporaryDirectory() as folder:
        os.chdir(folder)
        with open("c.toml", "w", encoding="utf-8") as file:
            file.write(config)
        yield
        os.chdir("/")


def run(rxline, *words, sent=SCRIPT):
    """Runs the program to its end. Returns its status, and what it wrote and told."""
    ran = subprocess.run([rxline, *words], input=sent, capture_output=True, timeout=MOST)
    return ran.returncode, ran.stdout, ran.stderr


def config(*pool, observers=2, more=""):
    """Returns a configuration of the subject `s`, of these lines of the pool, and of what else is served. Where they don't say it nobody is
    given up for what he takes, however slow this machine is."""
    lines = "".join(f"{line}\n" for line in ("stall = 3600", *pool)[any(line.startswith("stall") for line in pool) :])
    return f"{PUBLISH}observers = {observers}\n{more}[pool]\n{lines}"


@contextlib.contextmanager
def served(rxline, text, report, logged=()):
    """A server that ends by itself once the block's peers had their connections: with this report, and nothing told but that it listens,
    and what is logged: how many events of each sort."""
    with Server(rxline, text) as server:
        yield server
        want("the report", server.report(), report)
        want("what is told first", server.told()[0], server.listening())
        want("what is logged", server.logged(), dict(logged))


def joined(server, number, subject="s", policy="BUFFER DELAY"):
    """Returns a peer that follows, and is told this number."""
    peer = Peer(server.path)
    peer.ask(f"SUB {subject} {policy}".encode(), b"JOINED %d" % number)
    return peer


def is_answered(server, lines, answers):
    """A peer that sends these bytes and no more is answered so, and then let go."""
    with Peer(server.path) as peer:
        peer.send_last(lines)
        peer.hear_last(answers)


def answered_to_quit(peer, *lines):
    """Each of these lines and a QUIT is answered OK, and then the session is over."""
    peer.send(b"".join(line + b"\n" for line in [*lines, b"QUIT"]))
    peer.hear_last(b"OK\n" * (len(lines) + 1))


LONG = b"0123456789" * 7


def emit_all(producer, texts, subject=b"s"):
    """Emits these, 50 at a time."""
    for at in range(0, len(texts), 50):
        some = texts[at : at + 50]
        producer.send(b"".join(b"PUB %s %s\n" % (subject, text) for text in some))
        producer.hear(b"OK\n" * len(some))


def emit_for(producer, readers, texts, subject=b"s"):
    """Emits these, each answered and heard before the next."""
    for text in texts:
        producer.ask(b"PUB %s %s" % (subject, text), b"OK")
        for reader in readers:
            reader.hear(b"NEXT %s\n" % text)


def numbered(count):
    return [b"%070d" % number for number in range(count)]


def joins_at_last(peer):
    """Asks for a place until it has one, and returns what it is told then."""
    ends = time.monotonic() + MOST
    while True:
        peer.send(b"SUB s BUFFER DELAY\n")
        line = peer.line()
        if line != b"ERR FULL":
            return line
        want(f"a place within {MOST} s", time.monotonic() < ends, True)
        time.sleep(0.005)
