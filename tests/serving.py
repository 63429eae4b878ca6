"""A server in a folder of its own and the peers of one, for the programs beside this one."""

import os
import re
import select
import shutil
import socket
import subprocess
import sys
import tempfile
import time

# How long anything may take, in seconds.
MOST = 60

# What is logged of a subject that is over, which is no warning.
OVER = re.compile(r"<6>rxline: [-a-z0-9]+ is over: (DONE|FAILED) after [0-9]+ items")

NAME = os.path.basename(sys.argv[0])


def want(what, got, wanted):
    """Ends the program where these differ. Of two lists it tells the first place at which they do."""
    if got == wanted:
        return
    if isinstance(got, list) and isinstance(wanted, list):
        at = next((i for i, (a, b) in enumerate(zip(got, wanted)) if a != b), min(len(got), len(wanted)))
        what = f"{what}, at {at} of {len(got)} and {len(wanted)}"
        got, wanted = got[at : at + 1], wanted[at : at + 1]
    sys.exit(f"{NAME}: {what}: {got!r}, and not {wanted!r}")


def program(words):
    """Returns the path of the `rxline` that is tried: the first word, else the one that the gate built."""
    path = os.path.abspath(words[0] if words else "crates/rxline/out/rxline")
    if not os.access(path, os.X_OK):
        sys.exit(f"{NAME}: there is no {path} (cd crates/rxline && rt run < stdin)")
    return path


class Server:
    """A server of a configuration, begun by these words of a shell."""

    def __init__(self, rxline, config, begun_by='exec "$@"'):
        self.folder = tempfile.mkdtemp()
        self.path = f"{self.folder}/s.sock"
        self.told_in = f"{self.folder}/told"
        with open(f"{self.folder}/s.toml", "w", encoding="ascii") as file:
            file.write(config)
        self.words = ["sh", "-c", begun_by, "", rxline, "serve", f"{self.folder}/s.toml", self.path]
        self.start()

    def start(self):
        """Starts it; what one before told is gone."""
        with open(self.told_in, "wb") as faults:
            self.process = subprocess.Popen(self.words, stdout=subprocess.PIPE, stderr=faults)

    def __enter__(self):
        self.expect([self.listening()])
        return self

    def __exit__(self, *_):
        self.process.kill()
        self.process.wait()
        shutil.rmtree(self.folder)

    def listening(self):
        """Returns the line that it tells once it listens."""
        return f"rxline: listening on {self.path}"

    def told(self):
        """Returns the lines of its standard error so far."""
        with open(self.told_in, encoding="utf-8") as faults:
            return faults.read().splitlines()

    def logged(self):
        """Returns how many events its warnings tell so far, by what they say; each is a line of the log, and stands behind the others."""
        events = {}
        for line in self.told()[1:]:
            if OVER.fullmatch(line):
                continue
            match = re.fullmatch(r"<4>rxline: (.*?)(?: \(and ([1-9][0-9]*) more\))?", line)
            want(f"that {line!r} is a log line", match is not None, True)
            events[match.group(1)] = events.get(match.group(1), 0) + 1 + int(match.group(2) or 0)
        return events

    def expect_logged(self, wanted):
        """Waits until its log lines tell so many events, by what they say."""
        ends = time.monotonic() + MOST
        while self.logged() != wanted and time.monotonic() < ends and self.process.poll() is None:
            time.sleep(0.01)
        want("what is logged", self.logged(), wanted)

    def expect(self, wanted):
        """Waits until its standard error has these lines."""
        ends = time.monotonic() + MOST
        while self.told() != wanted and time.monotonic() < ends and self.process.poll() is None:
            time.sleep(0.01)
        want("standard error", self.told(), wanted)

    def resident(self):
        """Returns how many bytes of memory its process has."""
        with open(f"/proc/{self.process.pid}/status", encoding="ascii") as status:
            return next(int(line.split()[1]) * 1024 for line in status if line.startswith("VmRSS"))

    def report(self):
        """Waits until it has ended well, and returns its report."""
        reported, _ = self.process.communicate(timeout=MOST)
        want("the status", self.process.returncode, 0)
        return reported


class Face(Server):
    """A server with a face, begun in its folder, so that the path of its socket can be short."""

    def __init__(self, rxline, subjects, http="", pool=""):
        config = f'{subjects}\n[pool]\n{pool}\n[http]\nsocket = "h.sock"\n{http}\n'
        super().__init__(rxline, config, begun_by='cd "$(dirname "$3")"; exec "$@"')
        self.http = f"{self.folder}/h.sock"

    def __enter__(self):
        self.listens()
        return self

    def listens(self):
        """Waits until it listens at both its sockets."""
        told = rf"{re.escape(self.listening())}\nrxline: http on h\.sock, epoch ([0-9a-f]{{1,16}})"
        ends = time.monotonic() + MOST
        while not re.fullmatch(told, "\n".join(self.told())) and time.monotonic() < ends and self.process.poll() is None:
            time.sleep(0.01)
        match = re.fullmatch(told, "\n".join(self.told()))
        want(f"standard error {self.told()!r} tells an epoch", match is not None, True)
        self.epoch = match.group(1)

    def again(self):
        """Kills it, and starts another one at its paths."""
        self.process.kill()
        self.process.wait()
        self.start()
        self.listens()


class Peer:
    """A connection that sends bytes, and reads lines or bytes. What does not come in its time ends the program."""

    def __init__(self, path, least=None):
        self.socket = socket.socket(socket.AF_UNIX)
        if least is not None:
            self.socket.setsockopt(socket.SOL_SOCKET, socket.SO_RCVBUF, least)
        self.socket.settimeout(MOST)
        self.socket.connect(path)
        self.rest = b""

    def __enter__(self):
        return self

    def __exit__(self, *_):
        self.close()

    def close(self):
        self.socket.close()

    def send(self, lines):
        self.socket.sendall(lines)

    def send_last(self, lines):
        """Sends these, and then ends what it sends."""
        self.send(lines)
        self.socket.shutdown(socket.SHUT_WR)

    def more(self):
        """Reads what is there, or waits for it. Returns whether it was the end of file."""
        try:
            more = self.socket.recv(1 << 16)
        except socket.timeout:
            more = None
        except ConnectionResetError:
            more = b""  # so ends a connection on which something was sent that was never read
        want(f"that something comes within {MOST} s behind {self.rest[-100:]!r}", more is not None, True)
        self.rest += more
        return not more

    def line(self):
        """Returns the next line, or None at the end of file."""
        while b"\n" not in self.rest:
            if self.more():
                return None
        line, self.rest = self.rest.split(b"\n", 1)
        return line

    def lines(self, seconds):
        """Returns the lines that come within so many seconds, as soon as some do; None at the end of file."""
        if b"\n" not in self.rest:
            if not select.select([self.socket], [], [], max(0, seconds))[0]:
                return []
            if self.more():
                return None
        *lines, self.rest = self.rest.split(b"\n")
        return lines

    def ask(self, line, wanted):
        self.send(line + b"\n")
        want(f"the answer to {line!r}", self.line(), wanted)

    def follow(self, subject, policy):
        self.send(f"SUB {subject} {policy}\n".encode())
        want("a join", (self.line() or b"")[:7], b"JOINED ")

    def hear(self, wanted):
        """These bytes are to come next."""
        while len(self.rest) < len(wanted) and wanted.startswith(self.rest):
            if self.more():
                break
        got, self.rest = self.rest[: len(wanted)], self.rest[len(wanted) :]
        want("what is heard", got, wanted)

    def hear_last(self, wanted=b""):
        """These bytes are to come next, and then the end of file."""
        self.hear(wanted)
        if self.rest or not self.more():
            want("what is heard behind that", self.rest, b"")
