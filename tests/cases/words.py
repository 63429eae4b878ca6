"""The program by its words, over files and streams."""

import os
import re
import resource
import signal
import socket
import subprocess

from cases import case
from cases.ground import PUBLISH, SCRIPT, UNHEARD, folder_with, run
from serving import MOST, want

TOP = os.path.dirname(os.path.dirname(os.path.dirname(os.path.abspath(__file__))))
GIVEN = b"OK 0\nOK\ns 0 NEXT a\nOK\n"
UNREADABLE = b"rxline: cannot read config\n"
UNCONNECTED = b"rxline: no/such/socket: No such file or directory (os error 2)\nrxline: cannot connect\n"
SEEDED = '[[subject]]\nname = "s"\nkind = "behavior"\nseed = "z"\n'
SEEDED_LINES = (
    b"subject s behavior observers 64 joins 4294967295 items 4294967295 seed z\n"
    b"pool drainers 1 workers 4 window 16 connections 4294967295 stall 60 waiting 33554432\n"
)
REPLAY = '[[subject]]\nname = "s"\nkind = "replay"\n'


# Words, and the status, what is written and what is told.
STATUSES = [
    ([], 0, GIVEN, b""),
    (["script", "no/such/file"], 1, b"", UNREADABLE),
    (["audit", "no/such/file"], 1, b"", UNREADABLE),
    # A folder is opened, and can't be read.
    (["script", "."], 1, b"", UNREADABLE),
    (["audit", "."], 1, b"", UNREADABLE),
    (["check", "no/such/file"], 1, b"", b"no/such/file: No such file or directory (os error 2)\n" + UNREADABLE),
    (["check", "."], 1, b"", b".: Is a directory (os error 21)\n" + UNREADABLE),
    (["check", "no\n\x1b[2Jfile", "a"], 1, b"", b"no\\x0a\\x1b[2Jfile: No such file or directory (os error 2)\n" + UNREADABLE),
    (["--version"], 0, b"rxline 0.1.0\n", b""),
    (["serve", "no/such/file", "no/such/socket"], 1, b"", UNREADABLE),
    (["pub", "no/such/socket", "S", "a"], 2, b"", b"error: a subject is 1 to 32 of a to z, 0 to 9 and -\n"),
    (["pub", "no/such/socket", "s", "a"], 1, b"accepted 0\n", UNCONNECTED),
    (["sub", "no/such/socket", "s"], 1, b"", UNCONNECTED),
    (["stats", "no/such/socket"], 1, b"", UNCONNECTED),
    (["stats", "no/such/socket", "--json"], 1, b"", UNCONNECTED),
    (["stop", "no/such/socket"], 1, b"", UNCONNECTED),
    (["stop", "no/such/socket", "--within", "3600"], 1, b"", UNCONNECTED),
    (["stop", "no/such/socket", "--within", "3601"], 2, b"", b"error: --within takes a number of seconds, from 0 to 3600\n"),
]


@case
def ends_by_another_status(rxline):
    with folder_with(""):
        for words, *wanted in STATUSES:
            want(f"what {words} gives", run(rxline, *words), tuple(wanted))


@case
def answers_otherwise_than_the_readme(rxline):
    """The table of lines and answers, and the four strategies of its picture."""
    with open(f"{TOP}/README.md", encoding="ascii") as file:
        page = file.read()
    rows = re.findall(r"^\| (`[A-Z][^|]*) \| ([^|]*) \|$", page, re.MULTILINE)
    lines, answers = ([[text.encode() for text in re.findall("`([^`]*)`", cell)] for cell in column] for column in zip(*rows))
    sent, wanted = (b"".join(text + b"\n" for texts in column for text in texts) for column in (lines, answers))
    want("the answers to the lines of the page", run(rxline, sent=sent), (0, wanted, b""))
    drawn = re.findall(r"^    ([A-Z]+(?::1)?) +([-abc()#|]+)  ", page, re.MULTILINE)
    want("how many lines and strategies the page has", (len(lines), len(drawn)), (10, 4))
    for strategy, given in drawn:
        sent = f"JOIN s {strategy} DELAY 1\nPUB s a\nPUB s b\nPUB s c\nREQUEST s 0 2\nEND s\n".encode()
        signs = {b"NEXT a": "a", b"NEXT b": "b", b"NEXT c": "c", b"DONE": "|", b"FAILED OVERFLOW": "#"}
        notes = [signs[line[4:]] for line in run(rxline, sent=sent)[1].splitlines() if line.startswith(b"s 0 ")]
        want(f"the picture of {strategy}", "".join(notes), re.sub("[-()]", "", given))


def padded(length):
    """Returns a configuration of so many bytes."""
    return '[[subject]]\nname = "s"\nkind = "async"\n#'.ljust(length, ".")


# The bounds of a Replay, and what is told where there is none.
BOUNDS = ["count = 4096\n", "age = 1000\n", "items = 1000\n", "budget = 64000000\n"]
BOUNDLESS = b"subject 0: it keeps all that it takes: count, age, items or budget bounds that, as in: budget = 64000000\n"


def lines_of_replay(bound):
    """Returns the lines of a configuration of a Replay with one bound."""
    key, _, value = bound.strip().partition(" = ")
    kept = f" {key} {value}" if key in ("count", "age") else ""
    items = value if key == "items" else "4294967295"
    budget = f" budget {value}" if key == "budget" else ""
    subject = f"subject s replay{kept} observers 64 joins 4294967295 items {items}{budget}\n"
    return subject.encode() + b"pool drainers 1 workers 4 window 16 connections 4294967295 stall 60 waiting 33554432\n"


# What is told where nothing bounds what waits for an observer.
WAITS = b"subject 0: all that it takes may wait for an observer: waiting, items or budget bounds that, as in: waiting = 33554432\n"


def lines_without_bound(bound):
    """Returns the lines of a configuration of a Publish with this bound, and none of what waits for an observer."""
    return lines_of_replay(bound).replace(b"replay", b"publish").replace(b"waiting 33554432", b"waiting 0")


# Commands, the configuration that each is given, the status, what is written and what is told.
FILES = [
    ("script", REPLAY + "count = 0\n", 1, b"", b"rxline: config: subject 0 is refused\n"),
    ("audit", "", 1, b"", b"rxline: config: no subject\n"),
    ("script", SEEDED, 0, b"OK 0\ns 0 NEXT z\nOK\nOK\n", b""),
    ("audit", SEEDED, 0, b"OBSERVER s 0\nGIVEN NEXT z\nWAITING NEXT a\nWAITING NEXT b\n", b""),
    ("script", PUBLISH + "budget = 1\n", 1, b"", b"rxline: out of memory\n"),
    (
        "check",
        REPLAY + "count = 16\n[pool]\nwindow = 1\n",
        0,
        b"subject s replay count 16 observers 64 joins 4294967295 items 4294967295\n"
        b"pool drainers 1 workers 4 window 1 connections 4294967295 stall 60 waiting 33554432\n",
        b"",
    ),
    # What bounds a Replay, each alone, and nothing.
    *(("check", REPLAY + bound, 0, lines_of_replay(bound), b"") for bound in BOUNDS),
    ("check", REPLAY, 0, lines_of_replay(""), BOUNDLESS),
    # What bounds what waits for an observer, and nothing.
    ("check", PUBLISH + "[pool]\nwaiting = 0\n", 0, lines_without_bound(""), WAITS),
    *(("check", PUBLISH + bound + "[pool]\nwaiting = 0\n", 0, lines_without_bound(bound), b"") for bound in BOUNDS[2:]),
    (
        "check",
        PUBLISH + 'seed = "z"\n',
        1,
        b"",
        b'subject 0: seed is wrong: with kind = "behavior" alone, up to 1024 bytes without a line feed, as in: seed = "none yet"\n'
        b"rxline: config: subject 0 is refused\n",
    ),
    # The most bytes of a file, and one more.
    ("script", padded(65_536), 0, b"OK 0\nOK\nOK\n", b""),
    ("script", padded(65_537), 1, b"", UNREADABLE),
    ("check", padded(65_537), 1, b"", b"c.toml: it has more than 65536 bytes\n" + UNREADABLE),
]


@case
def takes_a_file_for_another(rxline):
    for command, config, *wanted in FILES:
        with folder_with(config):
            want(f"what {command} gives of {config[:200]!r}", run(rxline, command, "c.toml"), tuple(wanted))


@case
def serves_where_it_cannot(rxline):
    for config, told in (("", b"rxline: config: no subject\n"), (SEEDED, UNHEARD)):
        with folder_with(config):
            want("what serve gives in no folder", run(rxline, "serve", "c.toml", "no/such/socket"), (1, b"", told))


def usage(words):
    return b"Usage: rxline " + words + b"\n\nFor more information, try '--help'.\n"


# Words, the status, and how what is written begins and what is told begins and ends.
WRONG = [
    (["--help"], 0, b"Multicasts items", b"", b""),
    (["serve", "--help"], 0, b"Serves on a new Unix socket", b"", b""),
    (["serve", "a"], 2, b"", b"error: ", usage(b"serve <config> <socket>")),
    (["script"], 2, b"", b"error: ", usage(b"script <config>")),
    (["check"], 2, b"", b"error: ", usage(b"check <config> [socket]")),
    (["stats"], 2, b"", b"error: ", usage(b"stats <socket> [--json]")),
    (["stats", "a", "b"], 2, b"", b"error: ", usage(b"stats <socket> [--json]")),
    (["stop"], 2, b"", b"error: ", usage(b"stop <socket> [--within SECONDS]")),
    (["\x1b[2J"], 2, b"", b"error: ", b"For more information, try '--help'.\n"),
]


@case
def tells_no_usage_or_steers_a_terminal(rxline):
    for words, status, front, begins, ends in WRONG:
        got, written, told = run(rxline, *words)
        want(f"the status of {words}", got, status)
        want(f"how what {words} writes begins", written[: len(front)] if front else written, front)
        want(f"how what is told of {words} begins", told[: len(begins)] if begins else told, begins)
        want(f"how what is told of {words} ends", told[len(told) - len(ends) :], ends)
        want(f"whether {words} steers the terminal", b"\x1b" in written + told, False)


# Paths of sockets, and what is told to be in the way there.
IN_THE_WAY = [
    ("", b": the path of the socket is empty\n"),
    ("a" * 108, b": the path of the socket has more than 107 bytes\n"),
    ("no/such/socket", b": No such file or directory (os error 2)\n"),
    ("no\nsuch/socket", b"no\\x0asuch/socket: No such file or directory (os error 2)\n"),
]


@case
def tells_another_obstacle(rxline):
    with folder_with(SEEDED):
        for path, ends in IN_THE_WAY:
            status, written, told = run(rxline, "check", "c.toml", path)
            want(f"what is written of {path!r}", (status, written), (1, SEEDED_LINES))
            want(f"what is told of {path!r}", told[-len(ends + UNHEARD) :], ends + UNHEARD)
        want("what is told of a path where nothing stands", run(rxline, "check", "c.toml", "s.sock"), (0, SEEDED_LINES, b""))


# More reads than a number of 16 bits counts: each gets one byte.
READS = 70_000


def in_single_bytes(words):
    """Runs the program over one line that comes byte by byte, one a read."""
    ours, theirs = socket.socketpair(socket.AF_UNIX, socket.SOCK_SEQPACKET)
    with ours, subprocess.Popen(words, stdin=theirs, stdout=subprocess.PIPE, stderr=subprocess.PIPE) as process:
        theirs.close()
        for _ in range(READS - 1):
            ours.send(b"x")
        ours.send(b"\n")
        ours.shutdown(socket.SHUT_WR)
        return process.wait(MOST), process.stdout.read(), process.stderr.read()


@case
def counts_reads_by_16_bits(rxline):
    with folder_with(SEEDED):
        want("a script", in_single_bytes([rxline]), (0, b"ERR LONG\n", b""))
        want("an audit", in_single_bytes([rxline, "audit", "c.toml"]), (0, b"", b""))


@case
def takes_a_failed_read_for_the_end(rxline):
    ours, theirs = socket.socketpair()
    with theirs:
        # One that goes with bytes unread resets the connection: behind what it sent, a read fails.
        theirs.send(b"unread")
        ours.send(SCRIPT)
        ours.close()
        ran = subprocess.run([rxline], stdin=theirs, capture_output=True, timeout=MOST)
    want("a read that fails", (ran.returncode, ran.stdout, ran.stderr), (1, GIVEN, b"rxline: read fault\n"))


def leaves_room_for_four():
    """What a program does before it runs, so that a file which it writes takes four bytes."""
    signal.signal(signal.SIGXFSZ, signal.SIG_IGN)
    resource.setrlimit(resource.RLIMIT_FSIZE, (4, 4))


@case
def goes_on_behind_a_failed_write(rxline):
    with folder_with(""):
        with open("written", "wb") as written:
            ran = subprocess.run(
                [rxline], input=SCRIPT, stdout=written, stderr=subprocess.PIPE, timeout=MOST, preexec_fn=leaves_room_for_four, restore_signals=False
            )
        with open("written", "rb") as written:
            want("room for four bytes", (ran.returncode, written.read(), ran.stderr), (1, b"OK 0", b"rxline: write fault\n"))
