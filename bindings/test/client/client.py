"""What tests/clients has each client do, by `rxline`: it prints what it is told.

    follow PATH SUBJECT STRATEGY SINCE EPOCH PATIENCE     each note behind its position, once it has told `joined`
    publish PATH SUBJECT resend|once                      the texts of standard input; which were accepted, which may have been
    end PATH SUBJECT, fail PATH SUBJECT TEXT              ends the subject
    refused PATH COUNT                                    how so many calls are refused, beside many files that are open
    misuse PATH                                           how calls are refused that are sent to nobody
    waits PATH                                            how long calls wait for a server that says nothing
    quiet PATH                                            that a note which comes late is told
    idle PATH PATIENCE                                    what becomes of connections whose server is killed meanwhile
    many PATH SUBJECT                                     the texts of standard input; which were refused
    shared PATH COUNT                                     four that emit by one client, and one that is closed while it waits
    slow PATH                                             what is told, but items, once it looks for notes
A word that is `-` is left out."""

import os
import resource
import sys
import threading
import time

import rxline


def strategy_of(word):
    name, _, room = word.partition(":")
    if name == "BUFFER":
        return rxline.BUFFER
    return {"DROP": rxline.drop, "LATEST": rxline.latest, "BOUNDED": rxline.bounded}[name](int(room))


def tell(*words):
    sys.stdout.buffer.write(b" ".join(word if isinstance(word, bytes) else str(word).encode() for word in words) + b"\n")
    sys.stdout.flush()


def words_of(note):
    if isinstance(note, rxline.Item):
        return ("seed", note.text) if note.place is None else ("item", note.place, note.text)
    if isinstance(note, rxline.Missed):
        return ("missed", note.first, "-" if note.last is None else note.last)
    if isinstance(note, rxline.Restarted):
        return ("restarted", note.last)
    if isinstance(note, rxline.Failed):
        return ("failed", note.text)
    return (type(note).__name__.lower(),)


def follow_words(strategy, since, epoch, patience):
    """The words for `connect`, and those for `subscribe`."""
    position = None if since == "-" else rxline.Position.parse(since)
    connecting = {"epoch_subject": None if epoch == "-" else epoch, "patience": None if patience == "-" else float(patience)}
    return connecting, {"strategy": strategy_of(strategy), "since": position}


def follow(path, subject, *words):
    connecting, following = follow_words(*words)
    with rxline.connect(path, **connecting) as client, client.subscribe(subject, **following) as notes:
        tell("joined")
        for note in notes:
            tell(notes.position, *words_of(note))


def texts():
    return sys.stdin.buffer.read().split(b"\n")[:-1]


def published(first, outcome):
    """Tells what became of these, and which is the first that was not sent."""
    tell("accepted", first, first + outcome.accepted)
    tell("unknown", first + outcome.unanswered.start, first + outcome.unanswered.stop)
    time.sleep(0.01)
    return first + outcome.unanswered.stop


def publish(path, subject, way):
    handed_in, first = texts(), 0
    with rxline.connect(path) as client:
        while first < len(handed_in):
            try:
                count = client.publish_many(subject, handed_in[first:], resend=way == "resend")
                tell("accepted", first, first + count)
                first += count
            except rxline.NotAllPublished as outcome:
                first = published(first, outcome)


def end(path, subject):
    with rxline.connect(path) as client:
        client.complete(subject)


def fail(path, subject, text):
    with rxline.connect(path) as client:
        client.fail(subject, text)


def hold_many():
    """Opens so many files that the number of the next one is more than `select` takes."""
    _, most = resource.getrlimit(resource.RLIMIT_NOFILE)
    resource.setrlimit(resource.RLIMIT_NOFILE, (most, most))
    for _ in range(1024):
        os.dup(0)


def refused(path, count):
    hold_many()
    with rxline.connect(path) as client:
        for _ in range(int(count)):
            try:
                client.publish("s", "a")
            except rxline.Refused as refusal:
                tell(type(refusal).__name__, refusal.sentence)


KINDS = {ValueError: "invalid", rxline.NoServer: "no server", rxline.ConnectionLost: "lost", rxline.TimedOut: "timed out"}


def kind_of(fault):
    return KINDS.get(type(fault), type(fault).__name__)


MISUSES = [("s", b"a\nb"), ("S", b"a"), ("", b"a"), ("s t", b"a"), ("x" * 33, b"a"), ("s", b"a" * 1025)]
ROOMS = ["DROP:1025", "LATEST:0", "LATEST:1025", "BOUNDED:1025"]


def misuse(path):
    with rxline.connect(path) as client:
        for subject, text in MISUSES:
            try:
                client.publish(subject, text)
            except Exception as fault:
                tell(kind_of(fault))
        for room in ROOMS:
            try:
                client.subscribe("s", strategy_of(room))
            except Exception as fault:
                tell(kind_of(fault))
    try:
        rxline.connect(path + ".none")
    except Exception as fault:
        tell(kind_of(fault))


def waits(path):
    with rxline.connect(path, timeout=0.1) as client:
        for call in (client.ping, lambda: client.publish("s", "a")):
            try:
                call()
            except Exception as fault:
                tell(kind_of(fault))
        try:
            client.publish_many("s", ["a", "b"])
        except rxline.NotAllPublished as outcome:
            tell(outcome.accepted, len(outcome.unanswered), kind_of(outcome.__cause__))


def quiet(path):
    with rxline.connect(path) as client, client.subscribe("p", timeout=0.1) as notes:
        try:
            next(notes)
        except rxline.TimedOut as fault:
            tell(kind_of(fault))
        client.publish("p", "a")
        notes.timeout = None
        tell(*words_of(next(notes)))


def idle(path, patience):
    with rxline.connect(path, patience=float(patience)) as client, client.subscribe("p") as notes:
        tell("joined")
        try:
            next(notes)
        except rxline.RxlineError as fault:
            tell(kind_of(fault))
        sys.stdin.readline()
        client.ping()
        tell("pinged")
        sys.stdin.readline()
        tell("published", client.publish_many("p", ["a", "b"]))


def slow(path):
    with rxline.connect(path, patience=0) as client, client.subscribe("p", rxline.bounded(64)) as notes:
        tell("joined")
        sys.stdin.readline()
        for note in notes:
            if not isinstance(note, rxline.Item):
                tell(*words_of(note))


def many(path, subject):
    with rxline.connect(path) as client:
        try:
            tell("accepted", client.publish_many(subject, texts()))
        except rxline.NotAllPublished as outcome:
            refused = [f"{at}:{type(refusal).__name__}" for at, refusal in outcome.refused.items()]
            left = len(outcome.unanswered)
            tell("accepted", outcome.accepted, "refused", *refused, "unanswered", left, kind_of(outcome.__cause__))


def shared(path, count):
    with rxline.connect(path) as client, client.subscribe("p") as notes:

        def emit():
            for _ in range(int(count)):
                client.publish("p", "a")

        threads = [threading.Thread(target=emit) for _ in range(4)]
        for thread in threads:
            thread.start()
        tell(sum(note.text == b"a" for _, note in zip(range(4 * int(count)), notes)))
        for thread in threads:
            thread.join()
        threading.Timer(0.1, notes.close).start()
        tell(*notes)


if __name__ == "__main__":
    globals()[sys.argv[1]](*sys.argv[2:])
