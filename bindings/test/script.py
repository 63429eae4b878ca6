"""Runs a script of one subject over the library, and prints what `rxline script` prints for it in the second version of notes.

The words of the command line are the subject: KIND COUNT AGE OBSERVERS JOINS ITEMS, and the seed where it has one.
"""

import sys

from hazoxe import MOST, Cause, Errors, Kind, NoteKind, Refused, Strategy, Subject

WORDS = {
    Cause.ZERO_REQUEST: b"ZERO",
    Cause.NO_OBSERVER: b"OBSERVER",
    Cause.TOO_MUCH: b"TOOMUCH",
    Cause.TOO_LONG: b"LONG",
    Cause.BAD_ROOM: b"SYNTAX",
}


def subject_of(words):
    kind, count, age, observers, joins, items = map(int, words[:6])
    seed = words[6].encode() if len(words) > 6 else None
    kind = Kind.BEHAVIOR if seed is not None else Kind(kind)
    limits = {"observers": observers, "joins": joins, "items": items}
    return Subject(kind, seed=seed, count=count or None, age=age or None, **limits)


class Script:
    def __init__(self, subject):
        self.subject = subject
        self.at = 0

    def carry_out(self, line):
        command, _, rest = line.partition(b" ")
        rest = rest.partition(b" ")[2] if command != b"AT" else rest
        if command == b"PUB":
            self.subject.next(rest, at=self.at)
        elif command == b"FAIL":
            self.subject.error(rest, at=self.at)
        elif command == b"END":
            self.subject.complete(at=self.at)
        elif command == b"REQUEST":
            self.subject.request(*map(int, rest.split()))
        elif command == b"DISPOSE":
            self.subject.dispose(int(rest))
        elif command == b"AT":
            self.at = int(rest)
        elif command == b"JOIN":
            strategy, errors, first = rest.split()
            name, _, room = strategy.partition(b":")
            policy = Strategy[name.decode()], int(room or 0), Errors[errors.decode()]
            return b"OK %d" % self.subject.join(*policy, first=int(first), at=self.at).number
        return b"OK"

    def answer(self, line):
        try:
            return self.carry_out(line)
        except Refused as refused:
            return b"ERR " + WORDS.get(refused.cause, refused.cause.name.encode())


def told(note):
    if note.kind == NoteKind.NEXT:
        place = b"- -" if note.place == MOST else b"%d %d" % (note.place, note.port)
        return b"s %d NEXT %s %s" % (note.observer, place, note.text)
    if note.kind == NoteKind.COMPLETED:
        return b"s %d DONE" % note.observer
    return b"s %d FAILED %s" % (note.observer, note.text)


def main():
    with subject_of(sys.argv[1:]) as subject:
        script = Script(subject)
        for line in sys.stdin.buffer:
            sys.stdout.buffer.write(script.answer(line.rstrip(b"\n")) + b"\n")
            for note in subject.given():
                sys.stdout.buffer.write(told(note) + b"\n")


main()
