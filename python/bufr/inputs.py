"""The listings that commands read: of a file of listings, or of a BUFR file, whose messages `bufr show` lists under the tables of
each. Python 3 with its standard library alone."""
import os
import re
import select
import stat
import sys
from collections import deque
from io import BytesIO
from itertools import chain, islice

from .errors import Ended, Fault
from .processes import PIECE, Process, is_word, program
from .progress import Progress
from .skipped import NOTHING, TEXT, Skipped
from .versions import HERE, version_of

HEAD = 1 << 16
# How a line of a listing begins, in the first lines of a file.
LISTED = re.compile(rb"(?:\r?\n|#[^\n]*\n)*(?:message\r?$|section1 |time |local1 |section2\b|flags\b|descriptors |subset\r?$|end\r?$|"
                    rb"\d{6} (?:missing|\"|-?\d)|#[^\n]*\Z|\Z)", re.M)
CONTROLS = re.compile(rb"BUFR|[\x00-\x08\x0b\x0c\x0e-\x1f]")
COLUMNS = "place,length,master_version"


class NoMessage(Fault):
    """That a file has no message, and is no listing."""

    def __init__(self, path, why=NOTHING):
        super().__init__(f"{path} has no message, and is no listing{'' if why in (NOTHING, TEXT) else f': {why}'}")


def is_listing(head):
    """Whether a file that begins so has listings: it has no octets that only other files have before a line of a listing."""
    return bool(LISTED.match(head)) or not CONTROLS.search(head)


class Printing(Process):
    """A program that reads an input, and the lines that it has printed. An input that can be read only once is fed to it. Nothing
    here waits."""

    def __init__(self, words, is_fed):
        super().__init__(words, (0, 1) if is_fed else (1,))
        self.pieces, self.front, self.is_over, self.unsent = deque(), [], False, b""
        if is_fed:
            os.set_blocking(self.pipes[0], False)

    def feed(self, octets):
        """Takes the next octets of the input, or its end, once the last ones are sent."""
        self.unsent = memoryview(octets)
        if octets:
            self.send()
        else:
            self.shut(0)

    def send(self):
        try:
            while self.unsent:
                self.unsent = self.unsent[os.write(self.pipes[0], self.unsent):]
        except BlockingIOError:
            pass
        except OSError:
            # it takes no more
            self.unsent = b""
            self.shut(0)

    def read(self):
        """Takes in the whole lines that have come. A line that is cut is that of a program that was killed."""
        piece = os.read(self.pipes[1], PIECE)
        lines, end, rest = piece.rpartition(b"\n")
        if end:
            self.pieces.append(BytesIO(b"".join([*self.front, lines, end])))
            self.front = []
        self.front.append(rest)
        self.is_over = not piece


def decoded(line):
    """A line without its end, each octet a character."""
    if line.endswith(b"\n"):
        line = line[:-2] if line.endswith(b"\r\n") else line[:-1]
    return line.decode("latin-1")


def finish(printing):
    """Waits for the end of a program that prints no more. One that failed said why, unless it was killed."""
    printing.shut(0)
    status = printing.wait()
    if status < 0:
        raise Fault(f"{os.path.basename(printing.words[0])} was killed by signal {-status}")
    if status > 1:
        raise Ended(2)


class Listed:
    """The lines of an input, without their ends, each octet a character; `raw` has their octets. Of a BUFR file `place` has the place of the message whose
    lines come, and each message that is refused is told on standard error and counted, and told is also each loss of octets that
    are in no message; `file` is its name, and nothing for a file of listings. `-` is standard input."""

    def __init__(self, name, path, tables=None, quiet=False):
        self.name, self.path, self.tables = name, path, tables
        self.file, self.place, self.refused, self.messages = None, None, 0, 0
        self.reasons = []
        self.is_told = True
        self.programs = []
        self.skipped = None
        self.input = self.open()
        self.head, size = self.look()
        self.progress = Progress(name, size, quiet)
        self.is_listing = is_listing(self.head)

    def open(self):
        try:
            return 0 if self.path == "-" else os.open(self.path, os.O_RDONLY)
        except (OSError, ValueError) as error:
            raise Fault(f"cannot open {self.path}: {getattr(error, 'strerror', None) or error}") from error

    def look(self):
        """The head of the input, and its size if it is a regular file that programs can open: then it is read again, and else what was
        read is kept."""
        try:
            kept = os.fstat(self.input)
            self.is_regular = stat.S_ISREG(kept.st_mode) and is_word(self.path)
            if self.is_regular:
                at = os.lseek(self.input, 0, os.SEEK_CUR)
                return os.pread(self.input, HEAD, at), kept.st_size - at
            return os.read(self.input, HEAD), None
        except OSError as error:
            raise Fault(f"cannot read {self.path}: {error.strerror}") from error

    def __iter__(self):
        return map(decoded, self.raw())

    def raw(self):
        """The lines with their ends, as octets."""
        try:
            yield from self.listing() if self.is_listing else self.shown()
        finally:
            self.close()

    def lines(self):
        """The lines that are left of a file of listings, with their ends."""
        with open(self.input, "rb", closefd=self.input > 2) as file:
            if self.is_regular:
                yield from file
                return
            front = self.head
            while b"\n" in front:
                line, _, front = front.partition(b"\n")
                yield line + b"\n"
            first = front + file.readline()
            if first:
                yield first
            yield from file

    def listing(self):
        lines = self.lines() if self.progress.next is None else self.counted(self.lines())
        for line in lines:
            if line[0] == 35 and line.startswith(b"# refused "):
                self.refuse(decoded(line)[10:])
            yield line

    def counted(self, lines):
        """These lines, while it is told how far they are read."""
        at = told = 0
        for line in lines:
            at += len(line)
            if at > told:
                self.progress.at(at)
                told = at + HEAD
            yield line

    def refuse(self, said):
        """Tells a message that is refused."""
        self.refused += 1
        place, _, reason = said.partition(" ")
        if place.isdigit():
            self.reasons.append((int(place), reason))
        if self.is_told:
            sys.stderr.write(f"{self.name}: {self.path}: refused {said}\n")

    def start(self, words):
        """Starts a program on the input."""
        path = self.path if self.is_regular and self.path != "-" else "/dev/stdin"
        self.programs.append(Printing([*words, "--", path], not self.is_regular))
        return self.programs[-1]

    def pieces(self, program):
        """The lines that a program prints, as they come."""
        while program.pieces or not program.is_over:
            if program.pieces:
                yield program.pieces.popleft()
            else:
                self.wait(program)

    def wait(self, wanted):
        """Waits until a program has printed more. Meanwhile both get the input: one that takes no more of it prints until it does."""
        acts = {wanted.pipes[1]: (select.POLLIN, wanted.read)}
        full = [each for each in self.programs if each.unsent]
        for each in full:
            acts[each.pipes[0]] = select.POLLOUT, each.send
            if not each.is_over:
                acts[each.pipes[1]] = select.POLLIN, each.read
        if not full and any(0 in each.pipes for each in self.programs):
            acts[self.input] = select.POLLIN, self.take
        poll = select.poll()
        for file, (events, _) in acts.items():
            poll.register(file, events)
        for file, _ in poll.poll():
            acts[file][1]()

    def take(self):
        """Hands what has come of the input to the programs."""
        try:
            self.hand(os.read(self.input, HEAD))
        except OSError as error:
            raise Fault(f"cannot read {self.path}: {error.strerror}") from error

    def hand(self, piece):
        self.skipped.take(piece)
        for each in self.programs:
            if 0 in each.pipes:
                each.feed(piece)

    def shown(self):
        """The lines that `bufr show` prints of a BUFR file."""
        self.file = self.path
        if self.tables:
            words = [program("bufr"), "show", "-b", self.tables[0], "-d", self.tables[1]]
        else:
            words = [sys.executable, "-IS", os.path.join(HERE, "__main__.py"), "by-version", "show"]
        self.skipped = Skipped(("/dev/stdin" if self.path == "-" else self.path) if self.is_regular else None)
        lister, shower = self.start([program("bufr-ls"), "-c", COLUMNS]), self.start(words)
        if not self.is_regular:
            self.hand(self.head)
        rows = islice(chain.from_iterable(self.pieces(lister)), 1, None)
        for piece in self.pieces(shower):
            for line in piece:
                if line[0] > 57:
                    if line == b"message\n":
                        self.place = self.next_place(rows)
                elif line[0] == 35 and line.startswith(b"# refused "):
                    self.next_place(rows)
                    self.refuse(decoded(line)[10:])
                yield line
        finish(shower)
        while self.next_place(rows) is not None:
            pass
        finish(lister)
        self.end()

    def next_place(self, rows):
        """The place of the next message that has an answer. Those that no tables read have none; they are told, and refused."""
        for row in rows:
            place, length, version = row[:-1].split(b",")
            self.messages += 1
            self.skipped.message(int(place), int(length))
            self.progress.at(int(place) + int(length))
            if self.tables or not version or version_of(int(version)):
                return int(place)
            self.refused += 1
            self.reasons.append((int(place), f"no table here reads version {int(version)}"))
        return None

    def end(self):
        """Tells what was skipped."""
        losses = self.skipped.end()
        if not self.messages:
            raise NoMessage(self.path, losses[0].why if losses else NOTHING)
        for loss in losses:
            sys.stderr.write(f"{self.name}: {self.path}: skipped {loss.length} octets at {loss.place}: {loss.why}\n")

    def close(self):
        self.progress.end()
        for each in self.programs:
            each.end()
        self.programs = []
        if self.skipped:
            self.skipped.close()
        if not self.is_listing and self.input > 2:
            os.close(self.input)
            self.input = -1

    def status(self):
        return int(self.refused > 0)
