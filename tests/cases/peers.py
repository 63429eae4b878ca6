"""Peers of a server over its socket: what each is told, beside others that never read, pause, send what they should not, or go."""

import time

from cases import case
from cases.ground import LONG, answered_to_quit, config, emit_all, emit_for, is_answered, joined, joins_at_last, numbered, served
from serving import Peer, want


# What a subscriber says, what it is answered, and the notes that it hears.
VERSIONS = [
    (b"SUB s BUFFER DELAY\n", b"JOINED 0\n", b"NEXT a\nDONE\n"),
    (b"HELLO 2\nSUB s BUFFER DELAY\n", b"OK\nJOINED 0\n", b"NEXT 0 1 a\nDONE\n"),
]


@case
def tells_notes_of_another_version(rxline):
    for says, answers, notes in VERSIONS:
        with served(rxline, config("connections = 2"), b"s joins 1 refused 0\n") as server:
            first, second = Peer(server.path), Peer(server.path)
            first.send(says)
            first.hear(answers)
            second.send(b"PUB s a\nEND s\n")
            second.hear(b"OK\nOK\n")
            first.hear_last(notes)
            answered_to_quit(second)


# Those who never read.

@case
def waits_for_one_who_never_reads(rxline):
    with served(rxline, config("connections = 3"), b"s joins 2 refused 0\n") as server:
        _stopped, reader, producer = joined(server, 0), joined(server, 1), Peer(server.path)
        # More bytes than the buffer of a socket takes.
        emit_for(producer, [reader], [LONG] * 6_000)
        answered_to_quit(producer, b"END s")
        reader.hear_last(b"DONE\n")


POLICIES = ["BUFFER DELAY", "LATEST:1 DELAY", "DROP:0 AHEAD", "BOUNDED:8 DELAY"]


@case
def waits_for_twenty_who_never_read(rxline):
    subject = '[[subject]]\nname = "t"\nkind = "publish"\n'
    with served(rxline, config("connections = 22", more=subject), b"s joins 0 refused 0\nt joins 21 refused 0\n") as server:
        stopped = [Peer(server.path) for _ in range(20)]
        for place, peer in enumerate(stopped):
            peer.send(f"SUB t {POLICIES[place % 4]}\n".encode())
        reader, producer = Peer(server.path), Peer(server.path)
        reader.follow("t", "BUFFER DELAY")
        emit_for(producer, [reader], numbered(4_000), b"t")
        answered_to_quit(producer, b"END t")
        reader.hear_last(b"DONE\n")


# Those who pause while all is emitted: the policy, whether the last item is heard, whether each is, and the end.
PAUSING = [
    ("BUFFER DELAY", True, True, b"DONE"),
    ("LATEST:1 DELAY", True, False, b"DONE"),
    ("DROP:0 DELAY", False, False, b"DONE"),
    ("BOUNDED:8 DELAY", False, False, b"FAILED OVERFLOW"),
]


@case
def gives_who_paused_by_another_strategy(rxline):
    subject = '[[subject]]\nname = "t"\nkind = "publish"\nobservers = 4\n'
    texts = numbered(4_000)
    with served(rxline, config("connections = 5", more=subject), b"s joins 0 refused 0\nt joins 4 refused 0\n") as server:
        peers = [joined(server, number, "t", row[0]) for number, row in enumerate(PAUSING)]
        producer = Peer(server.path)
        emit_all(producer, texts, b"t")
        answered_to_quit(producer, b"END t")
        for peer, (policy, has_last, has_all, end) in zip(peers, PAUSING):
            *heard, last = iter(peer.line, None)
            texts_heard = [line[5:] for line in heard]
            want(f"the end by {policy}", last, end)
            want(f"that each by {policy} is an item, later than the one before", texts_heard, sorted(set(texts_heard) & set(texts)))
            want(f"whether by {policy} the last is heard, and each", (texts_heard[-1] == texts[-1], texts_heard == texts), (has_last, has_all))


# Those who send what they should not, and those who go.

# Lines that no session takes, and what each is answered. A script takes two of them.
REFUSED = [
    (b"", b"ERR SYNTAX"),
    (b"NOPE", b"ERR SYNTAX"),
    (b"PUB s", b"ERR SYNTAX"),
    (b"\xff\x00", b"ERR SYNTAX"),
    (b"JOIN s BUFFER DELAY 1", b"ERR SYNTAX"),
    (b"DISPOSE s 0", b"ERR SYNTAX"),
    (b"PUB t a", b"ERR SUBJECT"),
    (b"SUB t BUFFER DELAY", b"ERR SUBJECT"),
    (b"x" * 1_101, b"ERR LONG"),
]


@case
def carries_out_rubbish_or_a_cut_line(rxline):
    with served(rxline, config("connections = 4"), b"s joins 1 refused 0\n") as server:
        reader = joined(server, 0)
        with Peer(server.path) as peer:
            for line, answer in REFUSED:
                peer.ask(line, answer)
        is_answered(server, b"PUB s a", b"")
        is_answered(server, b"PUB s b\nEND s\nQUIT\n", b"OK\nOK\nOK\n")
        reader.hear_last(b"NEXT b\nDONE\n")


@case
def stops_where_an_observer_closes_early(rxline):
    with served(rxline, config("connections = 2"), b"s joins 1 refused 0\n") as server:
        joined(server, 0).close()
        answered_to_quit(Peer(server.path), b"PUB s a", b"PUB s b", b"PUB s c")


@case
def keeps_the_place_of_one_who_left(rxline):
    """One of two observers leaves, and behind the next items its place is free."""
    with served(rxline, config("connections = 4"), b"s joins 3 refused 0\n") as server:
        reader, producer = joined(server, 0), Peer(server.path)
        emit_for(producer, [reader], [LONG] * 20)
        joined(server, 1).close()
        emit_for(producer, [reader], [LONG] * 20)
        late = joined(server, 2)
        answered_to_quit(producer, b"END s")
        reader.hear_last(b"DONE\n")
        late.hear_last(b"DONE\n")


@case
def waits_for_an_item_to_free_a_place(rxline):
    """Nothing is emitted, and yet the place of one who left is free. One who only ends what it sends is served on."""
    with served(rxline, config("connections = 4"), b"s joins 3 refused 0\n") as server:
        quiet = Peer(server.path)
        quiet.send_last(b"SUB s BUFFER DELAY\n")
        quiet.hear(b"JOINED 0\n")
        joined(server, 1).close()
        late = Peer(server.path)
        want("a place", joins_at_last(late), b"JOINED 2")
        is_answered(server, b"PUB s a\nEND s\nQUIT\n", b"OK\nOK\nOK\n")
        quiet.hear_last(b"NEXT a\nDONE\n")
        late.hear_last(b"NEXT a\nDONE\n")


@case
def keeps_the_places_of_who_vanished(rxline):
    """Many have a place one after another, and vanish, though nothing is emitted."""
    with served(rxline, config("connections = 200", "workers = 1"), b"s joins 200 refused 0\n") as server:
        for _ in range(200):
            with Peer(server.path) as peer:
                want("a place", joins_at_last(peer)[:7], b"JOINED ")


@case
def stops_where_peers_reset(rxline):
    """A producer and an observer close before they have read all, which resets their connections. One worker serves the others on."""
    with served(rxline, config("connections = 6", "workers = 1"), b"s joins 3 refused 0\n") as server:
        unread, reader = joined(server, 0), joined(server, 1)
        with Peer(server.path) as producer:
            producer.send(b"PUB s a\nPUB s b\n")
            want("a byte of its answers", producer.socket.recv(1), b"O")
            reader.hear(b"NEXT a\nNEXT b\n")
        want("a byte of its notes", unread.socket.recv(1), b"N")
        unread.close()
        is_answered(server, b"PUB s c\nQUIT\n", b"OK\nOK\n")
        reader.hear(b"NEXT c\n")
        late = Peer(server.path)
        want("a place", joins_at_last(late), b"JOINED 2")
        is_answered(server, b"END s\nQUIT\n", b"OK\nOK\n")
        reader.hear_last(b"DONE\n")
        late.hear_last(b"DONE\n")


# How often a rough peer sends a block, which makes a gibibyte with no line feed.
BLOCK = b"x" * 65_536
BLOCKS = 16_384

# What a rough peer sends, piece by piece, and what it is answered; None where it goes without a look at that.
ROUGH = [
    ([b"%c" % byte for byte in b"PUB s b\r\nNOPE\n\nEND t\n"], b"OK\nERR SYNTAX\nERR SYNTAX\nERR SUBJECT\n"),
    ([b"PUB s b\r", b"\nPUB s c\r", b"\n", b"PUB s d\r\nPUB s e\r", b"\n"], b"OK\nOK\nOK\nOK\n"),
    ([b"PU", b"B s b\nP", b"UB s c\nPUB", b" s d\nQ"], b"OK\nOK\nOK\n"),
    ([b"x" * 1_100, b"\r\n"], b"ERR SYNTAX\n"),
    ([b"x" * 1_101, b"\n"], b"ERR LONG\n"),
    ([b"x" * 1_101, b"\r\n"], b"ERR LONG\n"),
    ([b"PUB s ", b"x" * 1_024, b"\r\n"], b"OK\n"),
    ([b"PUB s ", b"x" * 1_025, b"\r\n"], b"ERR LONG\n"),
    ([b"PUB s ", b"x" * 1_025, b"\n"], b"ERR LONG\n"),
    ([], None),
    ([b"PUB s b\nNOPE\n"], None),
    ([b"PUB s b"], None),
    ([*[BLOCK] * BLOCKS, b"\n"], b"ERR LONG\n"),
    ([], None),
]

# Within so many seconds one that is well is answered, on a machine however busy.
ANSWERED_IN = 5


def is_served(well):
    begins = time.monotonic()
    well.ask(b"PUB s a", b"OK")
    want(f"that one who is well is answered within {ANSWERED_IN} s", time.monotonic() - begins < ANSWERED_IN, True)


@case
def lets_rough_peers_hold_up_another(rxline):
    """After whatever a rough one did, and in the course of the longest, the one worker answers one who is well."""
    with served(rxline, config(f"connections = {len(ROUGH) + 1}", "workers = 1"), b"s joins 0 refused 0\n") as server:
        well = Peer(server.path)
        for pieces, answers in ROUGH:
            with Peer(server.path) as rough:
                for number, piece in enumerate(pieces):
                    rough.send(piece)
                    if number % 1_024 == 1_023:
                        is_served(well)
                if answers is not None:
                    rough.hear(answers)
            is_served(well)
        answered_to_quit(well)


@case
def wants_a_line_in_one_piece(rxline):
    with served(rxline, config("connections = 1", "workers = 1"), b"s joins 0 refused 0\n") as server:
        peer = Peer(server.path)
        for byte in b"PUB s a\r\nNOPE\n":
            peer.send(b"%c" % byte)
        peer.hear(b"OK\nERR SYNTAX\n")
        peer.send(b"PUB s b\r")
        peer.send(b"\nPUB s c\r")
        peer.hear(b"OK\n")
        peer.send(b"\n")
        peer.hear(b"OK\n")
        for _ in range(5):
            peer.send(b"x" * 600)
        peer.send(b"\nQUIT\n")
        peer.hear_last(b"ERR LONG\nOK\n")


# Lines whose answers find no room in a socket's buffers, so that those which are left wait in those of the peer.
UNREAD = 24_000


@case
def loses_answers_of_who_reads_late(rxline):
    """Who first sends all is answered all, and another one beside it."""
    with served(rxline, config("connections = 2", "workers = 1"), b"s joins 0 refused 0\n") as server:
        peer = Peer(server.path)
        # With a time of its own a send would wait for most of the buffer to be free.
        peer.socket.settimeout(None)
        peer.send(b"xxxx\n" * UNREAD)
        peer.send_last(b"PUB s a\n")
        is_answered(server, b"PUB s a\nQUIT\n", b"OK\nOK\n")
        peer.hear_last(b"ERR SYNTAX\n" * UNREAD + b"OK\n")


@case
def lets_silent_peers_hold_up_others(rxline):
    """Beside 300 who say nothing each who comes is answered; so is each of them, once it says something."""
    with served(rxline, config("connections = 320", "workers = 4"), b"s joins 0 refused 0\n") as server:
        silent = [Peer(server.path) for _ in range(300)]
        for _ in range(20):
            is_answered(server, b"PUB s a\nQUIT\n", b"OK\nOK\n")
        for peer in silent:
            answered_to_quit(peer, b"PUB s b")
