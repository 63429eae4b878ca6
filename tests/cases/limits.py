"""What a server bounds: times, memory, and who may listen at its path."""

import os
import re
import subprocess
import time

from cases import case
from cases.ground import LONG, PUBLISH, UNHEARD, answered_to_quit, config, emit_all, emit_for, folder_with, is_answered, joined, joins_at_last, run, served
from serving import MOST, Peer, Server, want


# Times.


@case
def ages_items_by_another_unit(rxline):
    """A moment of a server is a millisecond: an item is gone behind a second where it may be so old, and not where it may be a minute."""
    ages = "".join(f'[[subject]]\nname = "{name}"\nkind = "replay"\nage = {age}\n' for name, age in (("brief", 1_000), ("long", 60_000)))
    report = b"s joins 0 refused 0\nbrief joins 1 refused 0\nlong joins 1 refused 0\n"
    with served(rxline, config("connections = 3", more=ages), report) as server:
        producer = Peer(server.path)
        producer.ask(b"PUB brief a", b"OK")
        producer.ask(b"PUB long a", b"OK")
        time.sleep(1.2)
        answered_to_quit(producer, b"END brief", b"END long")
        joined(server, 0, "brief").hear_last(b"DONE\n")
        joined(server, 0, "long").hear_last(b"NEXT a\nDONE\n")


@case
def ends_the_wrong_session_as_idle(rxline):
    """One says nothing and is let go; one that says something now and then is not, nor an observer, who may be silent."""
    logged = {"a connection ends: it sent nothing for 3 s": 1}
    with served(rxline, config("connections = 3", "workers = 1", "idle = 3"), b"s joins 1 refused 0\n", logged) as server:
        follower, idle, busy = joined(server, 0), Peer(server.path), Peer(server.path)
        for _ in range(12):
            emit_for(busy, [follower], [b"a"])
            time.sleep(0.4)
        idle.hear_last()
        answered_to_quit(busy, b"END s")
        follower.hear_last(b"DONE\n")


@case
def ends_no_session_that_is_idle_alone(rxline):
    """Nobody else says a word, and yet a silent session is ended: behind its time, and not before it."""
    with served(rxline, config("connections = 1", "idle = 2"), b"s joins 0 refused 0\n", {"a connection ends: it sent nothing for 2 s": 1}) as server:
        peer = Peer(server.path)
        begins = time.monotonic()
        peer.hear_last()
        want("that it is not ended before its time", time.monotonic() - begins > 1.8, True)


# How many sessions end at about the same time, and how many lines may tell them in the seconds that this takes.
SILENT = 60
LINES = 6


@case
def logs_a_line_for_each_of_many(rxline):
    """Of many that end in a second there are a few lines, which together tell each; they come while the server runs on."""
    with Server(rxline, config(f"connections = {SILENT + 1}", "workers = 1", "idle = 2")) as server:
        peers = [Peer(server.path) for _ in range(SILENT)]
        for peer in peers:
            peer.hear_last()
        server.expect_logged({"a connection ends: it sent nothing for 2 s": SILENT})
        want("that few lines tell them", len(server.told()) - 1 <= LINES, True)
        answered_to_quit(Peer(server.path))
        want("the report", server.report(), b"s joins 0 refused 0\n")


SILENCE = b"<4>rxline: a connection ends: it sent nothing for 1 s\n"


def fill(pipe):
    """Writes to a pipe until it takes nothing more. It is opened anew, so that who else writes to it waits as before."""
    writer = os.open(f"/proc/self/fd/{pipe}", os.O_WRONLY | os.O_NONBLOCK)
    for size in (1 << 12, 1):
        try:
            while True:
                os.write(writer, b"." * size)
        except BlockingIOError:
            pass
    os.close(writer)


def first_line(pipe):
    """Reads a pipe up to its first LF: a line may be written in pieces."""
    line = b""
    while not line.endswith(b"\n"):
        line += os.read(pipe, 1)
    return line


def all_of(pipe):
    """Reads a pipe to its end."""
    with os.fdopen(pipe, "rb") as reader:
        return reader.read()


@case
def waits_for_who_reads_its_log(rxline):
    """Its standard error takes nothing more, and yet it serves, and ends those who are silent. What it logs comes once there is room."""
    with folder_with(config("connections = 3", "workers = 1", "idle = 1")):
        reader, writer = os.pipe()
        with subprocess.Popen([rxline, "serve", "c.toml", "s.sock"], stdout=subprocess.PIPE, stderr=writer) as process:
            want("what is told first", first_line(reader), b"rxline: listening on s.sock\n")
            fill(writer)
            os.close(writer)
            for _ in range(2):
                Peer("s.sock").hear_last()
            answered_to_quit(Peer("s.sock"), b"PUB s a")
            want("what is logged", all_of(reader).lstrip(b"."), SILENCE * 2)
            want("the report and the status", (process.stdout.read(), process.wait(MOST)), (b"s joins 0 refused 0\n", 0))


def listening(path):
    """Returns a connection to a server that tells nobody when it listens: its socket stands there before that."""
    ends = time.monotonic() + MOST
    while True:
        try:
            return Peer(path)
        except (FileNotFoundError, ConnectionRefusedError):
            want(f"that it listens within {MOST} s", time.monotonic() < ends, True)
            time.sleep(0.01)


@case
def gives_up_where_its_log_fails(rxline):
    """Its standard error fails from the first line on, and yet it serves, ends one who is silent, and reports."""
    with folder_with(config("connections = 2", "idle = 1")):
        with open("/dev/full", "wb") as full, subprocess.Popen([rxline, "serve", "c.toml", "s.sock"], stdout=subprocess.PIPE, stderr=full) as process:
            listening("s.sock").hear_last()
            answered_to_quit(Peer("s.sock"), b"PUB s a")
            want("the report and the status", (process.stdout.read(), process.wait(MOST)), (b"s joins 0 refused 0\n", 0))


@case
def adds_up_the_pauses_of_one_who_reads(rxline):
    """Who twice takes nothing for less than `stall` seconds, and in between reads all, is not given up."""
    with served(rxline, config("connections = 2", "stall = 6"), b"s joins 1 refused 0\n") as server:
        reader, producer = joined(server, 0), Peer(server.path)
        for _ in range(2):
            # More than a socket takes.
            emit_all(producer, [b"x" * 1_000] * 400)
            time.sleep(4)
            for _ in range(400):
                reader.hear(b"NEXT " + b"x" * 1_000 + b"\n")
        answered_to_quit(producer, b"END s")
        reader.hear_last(b"DONE\n")


@case
def keeps_the_place_of_one_who_stalls(rxline):
    """Of two observers, as many as there may be, one takes nothing for a second; then there is a place for another one."""
    with Server(rxline, config("connections = 4", "stall = 1")) as server:
        _stalled, _silent, producer = joined(server, 0), joined(server, 1, policy="DROP:0 DELAY"), Peer(server.path)
        emit_all(producer, [LONG] * 6_000)
        late = Peer(server.path)
        want("a place", joins_at_last(late), b"JOINED 2")
        answered_to_quit(producer)
        late.close()
        want("the report", server.report(), b"s joins 3 refused 0\n")
        # Of the other one, of whom items were let go, so much may wait that it is given up too. Who went by itself is not told.
        logged = server.logged()
        told = {re.sub(r"^observer [01] of s(.*), [1-9][0-9]* bytes wait$", r"\1", line) for line in logged}
        want("what is logged", told, {" is given up: its peer took nothing for 1 s"})
        want("whether each is told once", sum(logged.values()) in (1, 2), True)


# What may wait for an observer, what is logged, whether another one has its place then, and how many joins there were.
BOUNDS = [
    (100_000, {"observer 0 of s is given up: more than 100000 bytes wait for it": 1}, b"JOINED 2", 3),
    (0, {}, b"ERR FULL", 2),
]


@case
def keeps_all_for_one_who_never_reads(rxline):
    """Under BUFFER so many bytes wait for one who never reads, and then it is given up, long before `stall` is over, and the other one
    hears all. Where there is no bound it is kept."""
    for waiting, logged, answer, joins in BOUNDS:
        with Server(rxline, config("connections = 4", f"waiting = {waiting}")) as server:
            _stopped, reader, producer = joined(server, 0), joined(server, 1), Peer(server.path)
            # More than a socket and the bound take.
            emit_for(producer, [reader], [LONG] * 10_000)
            if logged:
                server.expect_logged(logged)
            else:
                time.sleep(3)
            late = Peer(server.path)
            late.ask(b"SUB s BUFFER DELAY", answer)
            answered_to_quit(producer, b"END s")
            reader.hear_last(b"DONE\n")
            late.close()
            want("the report", server.report(), b"s joins %d refused 0\n" % joins)
            want("what is logged", server.logged(), logged)


# The report, the path, and memory.


@case
def keeps_quiet_of_a_report_that_is_not_written(rxline):
    with Server(rxline, config("connections = 1"), 'exec "$@" > /dev/full') as server:
        answered_to_quit(Peer(server.path))
        want("the status", server.process.wait(MOST), 1)
        server.expect([server.listening(), "rxline: write fault"])


ABANDONED = b": a socket stands there on which nobody listens: takeover = true in [pool] has it removed\n"
TAKEN = b": another server listens there\n"
NO_SOCKET = b": something stands there that is no socket, and is not removed\n"


def checked(rxline, server, wanted):
    """A check of the path tells this, and refuses it where it tells something."""
    status, _, told = run(rxline, "check", f"{server.folder}/s.toml", server.path)
    told_wanted = server.path.encode() + wanted + UNHEARD if wanted else b""
    want("what is told to be in the way", (status, told), (1 if wanted else 0, told_wanted))


def refused(rxline, server):
    """Another server can't listen there."""
    want("a server beside", run(rxline, "serve", f"{server.folder}/s.toml", server.path), (1, b"", UNHEARD))


def listens_alone(rxline, server):
    """It serves the one connection that it is to serve. Neither a check nor another server counts as one."""
    refused(rxline, server)
    checked(rxline, server, TAKEN)
    answered_to_quit(Peer(server.path), b"PUB s a")
    want("the report", server.report(), b"s joins 0 refused 0\n")


@case
def takes_over_a_path_that_is_held(rxline):
    """A path where a socket was left is taken over where the pool says so, and else refused; so is one where a server listens, and one
    where a file stands, which stays. A check tells which it is."""
    with Server(rxline, config("connections = 1")) as server:
        listens_alone(rxline, server)
        refused(rxline, server)
        checked(rxline, server, ABANDONED)
        with open(f"{server.folder}/s.toml", "a", encoding="ascii") as file:
            file.write("takeover = true\n")
        checked(rxline, server, b"")
        server.start()
        server.expect([server.listening()])
        listens_alone(rxline, server)
        os.remove(server.path)
        checked(rxline, server, b"")
        with open(server.path, "wb"):
            pass
        checked(rxline, server, NO_SOCKET)
        refused(rxline, server)
        want("the file that stands there", os.path.getsize(server.path), 0)


HTTP = '[http]\nsocket = "h.sock"\n'
IN_THE_OTHER = b"h.sock: the socket of sessions is to stand there\n"


@case
def looks_past_the_path_of_events(rxline):
    """A check tells what is in the way at the socket of events as it does at that of sessions, and that both are one path, however that
    is written."""
    with folder_with(config() + HTTP):
        for path, told in (("s.sock", b""), ("h.sock", IN_THE_OTHER), ("./h.sock", IN_THE_OTHER)):
            status, _, heard = run(rxline, "check", "c.toml", path)
            want(f"what is told beside {path}", (status, heard), (1 if told else 0, told + UNHEARD if told else b""))
        want("a server of one path", run(rxline, "serve", "c.toml", "./h.sock")[::2], (1, UNHEARD))
        os.remove("h.sock")
        os.mkdir("both")
        with open("h.sock", "wb"):
            pass
        both = b"both" + NO_SOCKET + b"h.sock" + NO_SOCKET + UNHEARD
        want("what is told of two that stand", run(rxline, "check", "c.toml", "both")[::2], (1, both))
    with folder_with(config() + '[http]\nsocket = "no/such/h.sock"\n'):
        missing = b"no/such/h.sock: No such file or directory (os error 2)\n" + UNHEARD
        want("what is told of a folder that is missing", run(rxline, "check", "c.toml", "s.sock")[::2], (1, missing))


# How many say nothing, and how many bytes of the server one of them may take: a session alone has more.
QUIET = 400
MOST_QUIET = 4_096


@case
def holds_a_session_for_who_says_nothing(rxline):
    """Those who said nothing yet cost few bytes each, and are answered like any other once they say something."""
    with served(rxline, config(f"connections = {QUIET + 2}", "workers = 1"), b"s joins 0 refused 0\n") as server:
        is_answered(server, b"PUB s a\nQUIT\n", b"OK\nOK\n")
        before = server.resident()
        quiet = [Peer(server.path) for _ in range(QUIET)]
        # The one worker takes connections in their order, so behind this one it has them all.
        is_answered(server, b"PUB s a\nQUIT\n", b"OK\nOK\n")
        want("that they cost little", (server.resident() - before) / QUIET < MOST_QUIET, True)
        for peer in quiet:
            answered_to_quit(peer, b"PUB s b")


# More items than a socket and the budget take.
MANY = 20_000
MEMORY = b"ERR MEMORY"


def emits_until_refused(producer, text=LONG):
    """Returns how many items are admitted until one is refused for want of memory."""
    for admitted in range(MANY):
        producer.send(b"PUB s " + text + b"\n")
        answer = producer.line()
        if answer != b"OK":
            want("what an item is refused for", answer, MEMORY)
            return admitted
    want("that an item is refused", False, True)


def emits_at_last(producer):
    ends = time.monotonic() + MOST
    producer.send(b"PUB s " + LONG + b"\n")
    while (answer := producer.line()) == MEMORY and time.monotonic() < ends:
        time.sleep(0.005)
        producer.send(b"PUB s " + LONG + b"\n")
    want("an item at last", answer, b"OK")


@case
def holds_more_than_its_budget(rxline):
    """What waits for one who does not read is bounded. It hears all that was admitted, its subject goes on, and another one did."""
    subjects = PUBLISH + 'observers = 2\nbudget = 64000\n[[subject]]\nname = "t"\nkind = "publish"\n[pool]\nconnections = 2\n'
    with Server(rxline, subjects) as server:
        reader, producer = joined(server, 0), Peer(server.path)
        admitted = emits_until_refused(producer)
        producer.ask(b"PUB t a", b"OK")
        for _ in range(admitted):
            reader.hear(b"NEXT " + LONG + b"\n")
        emits_at_last(producer)
        reader.hear(b"NEXT " + LONG + b"\n")
        answered_to_quit(producer, b"END s")
        reader.hear_last(b"DONE\n")
        first, second = server.report().splitlines()
        # How many were refused is told of the hub alone, and not of texts.
        want("the report of the first", first.rpartition(b" ")[0], b"s joins 1 refused")
        want("the report of the second", second, b"t joins 0 refused 0")


BUDGET = "s refuses: its budget of 64000 bytes is used up"


@case
def keeps_quiet_of_a_subject(rxline):
    """That a subject refuses for want of its budget is told, and how it ended, once."""
    subjects = PUBLISH + 'budget = 64000\n[[subject]]\nname = "t"\nkind = "publish"\n[pool]\nconnections = 2\n'
    with Server(rxline, subjects) as server:
        reader, producer = joined(server, 0), Peer(server.path)
        # So short that a text takes no memory of its own: it is the subject that refuses.
        admitted = emits_until_refused(producer, b"a")
        for _ in range(admitted):
            reader.hear(b"NEXT a\n")
        answered_to_quit(producer, b"PUB t a", b"PUB t b", b"FAIL t why", b"END s")
        reader.hear_last(b"DONE\n")
        server.report()
        over = [line for line in server.told() if line.startswith("<6>")]
        wanted = [f"<6>rxline: s is over: DONE after {admitted} items", "<6>rxline: t is over: FAILED after 2 items"]
        want("what is told of their ends", sorted(over), wanted)
        want("what is logged", list(server.logged()), [BUDGET])


@case
def starts_without_memory_for_a_hub(rxline):
    little = PUBLISH + '[[subject]]\nname = "t"\nkind = "publish"\nbudget = 1\n'
    with folder_with(little):
        want("a budget that holds no hub", run(rxline, "serve", "c.toml", "s.sock"), (1, b"", b"rxline: cannot start pump 1\n"))
