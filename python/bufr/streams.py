"""The frames of streams, as `bufr-ls` finds them, and programs that are fed with them while the streams come. Nothing here
waits for the end of an input, or keeps more of it than its longest message and a megabyte. Python 3 with its standard library
alone."""
import fcntl
import os
import select
import stat

from .errors import Fault
from .processes import PIECE, Process, program
from .versions import table_paths, version_of

# How many octets are handed to programs before their answers are there.
ROOM = 1 << 20
LONGEST = (1 << 24) - 1
# How many parts of octets are written at once.
MOST_PARTS = 500
# The octets that bufr-ls may still find frames in: those of a longest frame, of its pipe and of its last read.
KEPT = LONGEST + 2 * ROOM
COLUMNS = "input,master_version,place,length"


def tables_of(version):
    b_path, d_path = table_paths(version)
    return ["-b", b_path, "-d", d_path]


def note(version):
    """Says which tables are taken, if the variable BUFR_VERBOSE asks for it."""
    if os.environ.get("BUFR_VERBOSE") == "1":
        say("bufr", f"tables of version {version}")


def say(name, text):
    """Writes a line on standard error, in one write."""
    try:
        os.write(2, os.fsencode(f"{name}: {text}\n"))
    except OSError:
        pass


def widen(pipe):
    """Makes an end of a pipe one that never waits, and its pipe as long as it may be. Returns it."""
    os.set_blocking(pipe, False)
    try:
        fcntl.fcntl(pipe, 1031, ROOM)
    except OSError:
        pass
    return pipe


def is_regular(path):
    """Whether a path is that of a file that `bufr-ls` reads by itself: it is regular, and its name is UTF-8."""
    try:
        path.encode("utf-8")
        return stat.S_ISREG(os.stat(path).st_mode)
    except (OSError, ValueError):
        return False


def opened(path):
    try:
        return os.open(path, os.O_RDONLY)
    except (OSError, ValueError) as error:
        raise Fault(f"cannot open {path}") from error


def end_of_run(rows, start, length):
    """Where the rows end that follow one another from a place on and differ in place and length alone. Rows of about so many
    octets are tried first, then the next row, and then more and more of them; once rows differ, fewer and fewer."""
    stop = rows.index(b"\n", start) + 1
    key = b"\n" + rows[start:rows.index(b",", rows.index(b",", start) + 1) + 1]
    step, more, is_over = max(start + length - 1 - stop, 0), 0, False
    while stop < len(rows):
        cut = rows.find(b"\n", stop + step) + 1 or len(rows)
        is_alike = rows.count(key, stop - 1, cut) == rows.count(b"\n", stop - 1, cut - 1)
        if is_alike:
            stop = cut
        elif step == 0:
            break
        is_over = is_over or not is_alike
        step, more = (step // 2, 0) if is_over else (more, max(2 * more, 64))
    return stop


class Part:
    """Frames of one input that follow one another and take tables of one version: `None` if any will do, since the frames are
    refused without tables, and 0 if none will do. `named` is the version that they name."""

    def __init__(self, number, version, named, rows, reading):
        self.number, self.version, self.named, self.rows, self.reading = number, version, named, rows, reading
        self.count = rows.count(b"\n")
        # the place of the first frame, and where the last one ends
        first, last = rows.split(b",", 3), rows[rows.rfind(b"\n", 0, -1) + 1:-1].split(b",")
        self.start, self.stop = int(first[2]), int(last[2]) + int(last[3])

    def column(self, at):
        return self.rows.replace(b"\n", b",").split(b",")[at:-1:4]

    def places(self):
        return list(map(int, self.column(2)))

    def lengths(self):
        return list(map(int, self.column(3)))

    def octets(self):
        """The octets from the first frame on, and whether noise between the frames is left in: it is if it has no `BUFR`, which
        could hold back a frame."""
        octets = self.reading.octets(self.number, self.start, self.stop)
        if self.count == 1 or octets.count(b"BUFR") == self.count:
            return octets, True
        return b"".join(self.frames(octets)), False

    def frames(self, octets=None):
        """The octets of each frame."""
        if octets is None:
            octets = self.reading.octets(self.number, self.start, self.stop)
        places = (place - self.start for place in self.places())
        return [octets[place:place + length] for place, length in zip(places, self.lengths())]

    def halves(self):
        """Two parts with the same frames."""
        cut = self.rows.find(b"\n", len(self.rows) // 2) + 1
        if cut in (0, len(self.rows)):
            cut = self.rows.rfind(b"\n", 0, -1) + 1
        return [Part(self.number, self.version, self.named, rows, self.reading) for rows in (self.rows[:cut], self.rows[cut:])]


class Heads:
    """A run of `bufr-ls`. Its inputs are those of a call from the one numbered `first` on."""

    def __init__(self, first, words, piped):
        self.first, self.rest, self.has_header, self.is_over = first, b"", False, False
        self.process = Process([program("bufr-ls"), "-c", COLUMNS, "--", *words], piped)
        self.rows = widen(self.process.pipes[1])

    def read(self):
        """The rows that have come."""
        try:
            text = os.read(self.rows, PIECE)
        except BlockingIOError:
            return b""
        if not text:
            self.finish()
            return b""
        text = self.rest + text
        cut = text.rfind(b"\n") + 1
        text, self.rest = text[:cut], text[cut:]
        if cut and not self.has_header:
            self.has_header, text = True, text[text.find(b"\n") + 1:]
        return text

    def finish(self):
        self.is_over = True
        said = self.process.rest_of(2).decode("utf-8", "surrogateescape").partition("\n")[0].removeprefix("bufr-ls: ")
        if self.process.wait() not in (0, 1):
            import re
            found = re.fullmatch(r"(.* input )(\d+)", said)
            if self.process.status != 2:
                said = f"{program('bufr-ls')} ends with {self.process.status}"
            raise Fault(f"{found[1]}{int(found[2]) + self.first}" if found else said)

    def close(self):
        self.process.end()


class Files(Heads):
    """Regular files, which `bufr-ls` reads by itself."""

    def __init__(self, first, names):
        super().__init__(first, names, (1, 2))
        self.names, self.at, self.file = names, None, None

    def octets(self, number, start, stop):
        if self.at != number:
            self.shut()
            self.at, self.file = number, opened(self.names[number - self.first])
        parts = []
        while start < stop:
            parts.append(os.pread(self.file, stop - start, start))
            if not parts[-1]:
                raise Fault(f"read failed input {number + 1}")
            start += len(parts[-1])
        return parts[0] if len(parts) == 1 else b"".join(parts)

    def size(self):
        return sum(os.stat(name).st_size for name in self.names)

    def waits(self):
        return [(self.rows, select.POLLIN)]

    def act(self, _file):
        return self.read()

    def shut(self):
        if self.file is not None:
            os.close(self.file)
            self.file = None

    def close(self):
        self.shut()
        super().close()


class Pipe(Heads):
    """An input that can be read only once. What is read goes to `bufr-ls`, and is kept until the rows of its frames come."""

    def __init__(self, first, name, file=None):
        self.file = opened(name) if file is None else file
        super().__init__(first, ["/dev/stdin"], (0, 1, 2))
        self.to = widen(self.process.pipes[0])
        self.window, self.base, self.taken, self.unsent, self.is_read = bytearray(), 0, 0, b"", False

    def octets(self, _number, start, stop):
        del self.window[:start - self.base]
        with memoryview(self.window) as view:
            octets = bytes(view[:stop - start])
        del self.window[:stop - start]
        self.base = stop
        return octets

    def size(self):
        return self.taken

    def waits(self):
        found = [(self.rows, select.POLLIN)]
        if self.unsent:
            found.append((self.to, select.POLLOUT))
        elif not self.is_read:
            found.append((self.file, select.POLLIN))
        return found

    def act(self, file):
        if file == self.rows:
            return self.read()
        if file == self.file and not self.unsent:
            self.take()
        self.send()
        return b""

    def take(self):
        try:
            piece = os.read(self.file, PIECE)
        except OSError as error:
            raise Fault(f"read failed input {self.first + 1}") from error
        if not piece:
            self.is_read = True
            self.process.shut(0)
        self.taken += len(piece)
        self.window += piece
        self.unsent = memoryview(piece)
        if len(self.window) > KEPT:
            self.base += len(self.window) - KEPT
            del self.window[:len(self.window) - KEPT]

    def send(self):
        try:
            while self.unsent:
                self.unsent = self.unsent[os.write(self.to, self.unsent):]
        except BlockingIOError:
            pass
        except BrokenPipeError:
            self.unsent, self.is_read = b"", True

    def close(self):
        if self.file > 2:
            os.close(self.file)
        super().close()


class Inputs:
    """The frames of the inputs of a call, in order. An input is opened when the one before was read to its end."""

    def __init__(self, names, standard_input=None, progress=None):
        self.names, self.standard_input, self.progress = names, standard_input, progress
        self.next, self.reading, self.parts, self.size = 0, None, [], 0
        # how long the rows of the last part were
        self.length = 0

    def is_over(self):
        return not self.parts and self.reading is None and self.next == len(self.names)

    def open_next(self):
        first = self.next
        for name in self.names[first:]:
            if name == self.standard_input or not is_regular(name):
                break
            self.next += 1
        if self.next > first:
            self.reading = Files(first, self.names[first:self.next])
        else:
            self.next += 1
            name = self.names[first]
            self.reading = Pipe(first, name, 0 if name == self.standard_input else None)

    def take(self):
        """The next part of at most some 64 KiB or of one frame, if it is there."""
        if not self.parts:
            if self.reading and self.reading.is_over:
                self.size += self.reading.size()
                self.reading.close()
                self.reading = None
            if self.reading is None and self.next < len(self.names):
                self.open_next()
            return None
        part = self.parts.pop(0)
        while part.count > 1 and part.stop - part.start > PIECE:
            part, other = part.halves()
            self.parts.insert(0, other)
        if self.progress:
            self.progress.reached(part.number, part.stop)
        return part

    def waits(self):
        """What to wait for until there is a next part."""
        return self.reading.waits() if self.reading and not self.parts and not self.reading.is_over else []

    def act(self, file):
        rows, at, kept = self.reading.act(file), 0, None
        while at < len(rows):
            number, word, _ = rows[at:at + 60].split(b",", 2)
            named = int(word) if word else None
            version = None if named is None else version_of(named) or 0
            here = int(number) - 1 + self.reading.first, version, named if version == 0 else None
            if here != kept:
                if kept is not None:
                    self.parts.append(Part(*kept, rows[start:at], self.reading))
                kept, start = here, at
            stop = end_of_run(rows, at, self.length)
            at, self.length = stop, stop - at
        if kept is not None:
            self.parts.append(Part(*kept, rows[start:], self.reading))

    def close(self):
        if self.reading:
            self.reading.close()


def pump(inputs, taker):
    """Hands the frames of inputs to a taker, until both are done."""
    try:
        hand_on(inputs, taker)
    finally:
        if inputs.progress:
            inputs.progress.end()


def hand_on(inputs, taker):
    while True:
        is_wanted = taker.has_room()
        part = inputs.take() if is_wanted else None
        if part:
            taker.give(part)
            continue
        waits = inputs.waits() if is_wanted else []
        if is_wanted and not waits and not inputs.is_over():
            continue
        theirs = taker.waits()
        if not waits and not theirs:
            # what was answered just now made room
            if inputs.is_over():
                return
            continue
        poll = select.poll()
        for file, events in [*waits, *theirs]:
            poll.register(file, events)
        ours = {file for file, _ in waits}
        for file, _ in poll.poll():
            (inputs if file in ours else taker).act(file)


def rest_after(parts, count):
    """Parts of octets without the first octets, so many."""
    first = 0
    while first < len(parts) and count >= len(parts[first]):
        count -= len(parts[first])
        first += 1
    parts = parts[first:]
    if count:
        parts[0] = memoryview(parts[0])[count:]
    return parts


class Fed:
    """A program that is fed through a pipe."""

    def __init__(self, words):
        self.process = Process(words, (0, 1))
        self.to, self.answers = widen(self.process.pipes[0]), widen(self.process.pipes[1])
        self.unsent, self.owed, self.is_gone = [], 0, False

    def put(self, octets):
        """Feeds it with octets; few of them are sent with the next ones, or by `has_unsent`, before this program waits."""
        self.unsent.append(octets)
        self.owed += len(octets)
        if self.owed > PIECE:
            self.send()

    def send(self):
        try:
            while self.unsent:
                sent = os.writev(self.to, self.unsent[:MOST_PARTS])
                self.owed -= sent
                self.unsent = rest_after(self.unsent, sent)
        except BlockingIOError:
            pass
        except BrokenPipeError:
            self.unsent, self.owed, self.is_gone = [], 0, True

    def has_unsent(self):
        """Sends what can be sent, and returns whether there is more."""
        self.send()
        return bool(self.unsent)

    def finish(self):
        """Ends its input, and returns the last that it prints, and its status."""
        self.process.shut(0)
        return self.process.rest_of(1), self.process.wait()


class Output:
    """Standard output, written without a buffer that outlives a wait."""

    def __init__(self):
        self.parts, self.held, self.written = [], 0, 0

    def put(self, octets):
        if octets:
            self.parts.append(octets)
            self.held += len(octets)
        if self.held > ROOM or len(self.parts) == MOST_PARTS:
            self.flush()

    def flush(self):
        parts, self.parts, self.held = self.parts, [], 0
        while parts:
            try:
                sent = os.writev(1, parts)
            except BlockingIOError:
                select.select([], [1], [])
                continue
            except OSError as error:
                raise Fault(f"write failed after {self.written} octets") from error
            self.written += sent
            parts = rest_after(parts, sent)


def leave_out(name, inputs, part):
    """Says of each frame of a part that no tables here read it."""
    for place in part.places():
        say(name, f"{inputs.names[part.number]}: no table here reads version {part.named} of the message at {place}")
