"""Reads each message by the tables of its own version: 13 for master table versions up to 13, 14 to 18 each, and 46 from 19
on. `bufr` without -b, -d and BUFR_TABLES runs it for what takes several versions. Called by its own name it parts streams by
these versions, and writes the messages of each to a file version_NN.bufr, or runs a command for each:

    bufr-by-version --into FOLDER FILE..
    bufr-by-version --run 'bufr check' FILE..
    bufr-by-version --run 'bufr add -o day_{}.bufr' FILE..

The command gets the tables of the version, and its messages as a file; {} in it stands for the version. What `bufr check` and
`bufr show` print comes in the order of the messages, while the streams come, with the places of their own file, and a line
`# FILE` before those of each if there are several. What other commands print comes one version after the other; they do not
get messages that no tables read (another edition or master table, broken sections). No command gets messages of a version
beyond the newest. Standard error has a line for each message that is left out.

The status is 2 if a command or a file failed, 1 if a message was refused or left out, else 0."""
import os
import sys

from . import streams as bufr_streams
from .commands import called, run
from .errors import Ended, Fault
from .processes import end_all, halt_at_signals, is_word, program
from .streams import Fed, Inputs, Output, leave_out, note, tables_of
from .versions import VERSIONS

COMMANDS = ("show", "check", "encode", "add", "merge")
# How many octets of a program's answers are read at once; more if a line is longer.
ANSWER = 1 << 18
NEWEST = VERSIONS[-1]
# A frame that is refused under any tables. It is fed after each part, and the line of its refusal ends the answers to the part:
# its place is greater than that of any message before it, so no other line is like it.
MARK = b"BUFR\0\0\x0c\x057777"
LINES = {"show": b"# refused %d M2 Edition 5\n", "check": b"%d 12 refused M2 Edition 5\n"}


# ---- show and check: one program for each version, and what they print in the order of the messages

class Answering(Fed):
    """A program that prints an answer for each message: `show` a listing or a line, `check` a line."""

    def __init__(self, words):
        super().__init__(words)
        self.fed = 0
        # what has come: whole lines up to `cut`, and up to `at` they are printed; then the front of a line
        self.room = bytearray(ANSWER)
        self.text = memoryview(self.room)
        self.at = self.cut = self.end = 0

    def ask(self, octets, place):
        """Feeds a part and a mark. Returns the places at which they begin for the program: for the part the place that it has in
        its input, if few octets more do it."""
        gap = place - self.fed
        filler = bytes(gap) if 0 <= gap <= max(4 * len(octets), 1 << 16) else b""
        start = self.fed + len(filler)
        self.fed = start + len(octets) + len(MARK)
        self.put(filler + octets + MARK)
        return start, start + len(octets)

    def read(self):
        """Takes in what has come; all that came before is printed. Returns whether there may be more."""
        rest = self.text[self.cut:self.end]
        if 2 * len(rest) > len(self.room):
            self.room = bytearray(2 * len(self.room))
            self.text = memoryview(self.room)
        self.text[:len(rest)] = rest
        self.at, self.cut, self.end = 0, 0, len(rest)
        try:
            count = os.readv(self.answers, [self.text[self.end:]])
        except BlockingIOError:
            return True
        self.cut = self.room.rfind(b"\n", self.end, self.end + count) + 1
        self.end += count
        return count > 0

    def find(self, ending, kind):
        """The place of a line in what is not printed, and whether there may be messages before it that are refused; below 0 if
        the line has not come."""
        if kind == "check":
            return self.room.find(ending, self.at, self.cut), True
        place, is_refused = self.room.find(b"#", self.at, self.cut), False
        while place >= 0 and not (self.room.startswith(ending, place) and (place == 0 or self.room[place - 1] == 10)):
            is_refused = is_refused or self.room.startswith(b"# refused ", place)
            place = self.room.find(b"#", place + 1, self.cut)
        return place, is_refused


class Asked:
    """A part that a program was fed with, and that is not answered to its end."""

    def __init__(self, source, part, kind):
        self.source, self.part, self.kind = source, part, kind
        octets, self.has_noise = part.octets()
        self.size = len(octets)
        self.start, mark = source.ask(octets, part.start)
        self.ending = LINES[kind] % mark
        self.known = None

    def place(self, printed):
        """The place in the input of a message whose place in what was fed is printed."""
        if self.has_noise:
            return int(printed) - self.start + self.part.start
        if self.known is None:
            self.known, at = {}, self.start
            for place, length in zip(self.part.places(), self.part.lengths()):
                self.known[at] = place
                at += length
        return self.known[int(printed)]

    def take(self):
        """The text that has come of its answers, with the places that the messages have in their input; how many of them are
        refused, and whether that is all."""
        source = self.source
        start, (stop, is_refused) = source.at, source.find(self.ending, self.kind)
        is_all = stop >= 0
        if not is_all:
            stop = source.cut
        source.at = stop + len(self.ending) * is_all
        if is_refused:
            return *self.moved(source.text[start:stop]), is_all
        return source.text[start:stop], 0, is_all

    def moved(self, text):
        """A text with the places of the input, and how many messages are refused in it."""
        if self.has_noise and self.start == self.part.start:
            whole = bytes(text)
            return text, whole.count(b" refused ") if self.kind == "check" else (b"\n" + whole).count(b"\n# refused ")
        if self.kind == "check":
            lines = bytes(text).split(b"\n")[:-1]
            ends = [line.index(b" ") for line in lines]
            text = b"".join([b"%d%s\n" % (self.place(line[:end]), line[end:]) for line, end in zip(lines, ends)])
            return text, text.count(b" refused ")
        import re
        return re.subn(rb"(?m)^# refused (\d+)", lambda found: b"# refused %d" % self.place(found[1]), bytes(text))


class Answers:
    """The answers of `show` or `check` to the messages of some inputs, printed in their order."""

    def __init__(self, name, inputs, kind, words):
        self.name, self.inputs, self.kind, self.words = name, inputs, kind, words
        self.out, self.programs, self.last = Output(), {}, None
        # the parts that are not answered, and how many octets they have
        self.queue, self.owed = [], 0
        self.at = None
        self.frames = self.refused = self.left_out = self.marks = 0

    def has_room(self):
        return self.owed < bufr_streams.ROOM

    def give(self, part):
        self.frames += part.count
        if part.version == 0:
            self.refused += part.count
            self.left_out += sum(part.lengths())
            leave_out(self.name, self.inputs, part)
            return
        asked = Asked(self.of(part.version or self.last or NEWEST), part, self.kind)
        self.owed += asked.size
        self.marks += 1
        self.queue.append(asked)

    def of(self, version):
        """The program that runs with the tables of a version."""
        self.last = version
        if version not in self.programs:
            note(version)
            words = [word.replace("{}", str(version)) for word in self.words]
            self.programs[version] = Answering([*words, *tables_of(version), "/dev/stdin"])
        return self.programs[version]

    def answer(self):
        """Prints the answers that are there."""
        while self.queue:
            head = self.queue[0]
            if head.source.at == head.source.cut:
                return
            if head.part.number != self.at and len(self.inputs.names) > 1:
                self.out.put(b"# %s\n" % os.fsencode(self.inputs.names[head.part.number]))
            self.at = head.part.number
            text, refused, is_all = head.take()
            self.refused += refused
            self.out.put(text)
            if is_all:
                self.queue.pop(0)
                self.owed -= head.size

    def waits(self):
        self.answer()
        self.out.flush()
        found = [(each.to, bufr_streams.select.POLLOUT) for each in self.programs.values() if each.has_unsent()]
        if self.queue:
            found.append((self.queue[0].source.answers, bufr_streams.select.POLLIN))
        return found

    def act(self, file):
        for each in self.programs.values():
            if file == each.to:
                each.send()
            elif file == each.answers and not each.read():
                # it ended too early, and said why
                self.out.flush()
                raise Ended(2)

    def finish(self):
        skipped = self.inputs.size - self.left_out
        for each in self.programs.values():
            text, status = each.finish()
            if status not in (0, 1):
                raise Ended(2)
            if self.kind == "check":
                # what it did not skip are marks and messages
                skipped -= each.fed - int(text.split()[5])
        if self.kind == "check":
            skipped += self.marks * len(MARK)
            self.out.put(b"frames %d refused %d skipped %d\n" % (self.frames, self.refused, skipped))
        self.out.flush()
        return int(self.refused > 0)


def answer(name, names, kind, words, standard_input=None, progress=None):
    """Runs `show` or `check` on inputs."""
    inputs = Inputs(names, standard_input, progress)
    answers = Answers(name, inputs, kind, words)
    try:
        bufr_streams.pump(inputs, answers)
        return answers.finish()
    finally:
        end_all()


# ---- the command line of bufr

def read_words(words):
    """The options, the name after -o and the inputs of a command of `bufr`; none if its words are not all plain."""
    options, outs, names, before = [], [], [], ""
    for word in words[1:]:
        if before == "o":
            outs.append(word)
            before = ""
        elif before == "-" or word == "-" or not word.startswith("-"):
            names.append(word)
        elif word == "--":
            before = "-"
        elif word == "-o":
            before = "o"
        elif word.startswith("-o"):
            outs.append(word[2:].removeprefix("="))
        elif word == "--compressed":
            options.append(word)
        else:
            return None
    is_archive = words[0] in ("add", "merge")
    if before == "o" or len(outs) != is_archive or len(options) > (words[0] == "encode") or not names:
        return None
    if not is_archive and len(names) > 1 or not all(map(is_word, words)):
        return None
    return options, outs, names


def run_bufr(words):
    """Runs a command of `bufr`, each message under the tables of its version."""
    known = read_words(words)
    if known is None:
        path = program("bufr")
        os.execvp(path, [path, words[0], *tables_of(NEWEST), *words[1:]])
    options, outs, names = known
    if words[0] in ("show", "check"):
        return answer("bufr", names, words[0], [program("bufr"), words[0]])
    from . import archives as bufr_archives
    if words[0] == "encode":
        return bufr_archives.encode(options, names[0])
    return (bufr_archives.add if words[0] == "add" else bufr_archives.merge)(outs[0], names)


# ---- the command line of by-version

def run_by_version():
    import shlex
    from . import archives as bufr_archives
    from .parsers import add_inputs, parser_of
    from .progress import InputsProgress
    parser = parser_of("by-version", __doc__, has_tables=False)
    to = parser.add_mutually_exclusive_group(required=True)
    to.add_argument("--into", metavar="FOLDER", help="writes FOLDER/version_NN.bufr for each version")
    to.add_argument("--run", metavar="COMMAND", help="runs the command for each version, with -b TABLE_B -d TABLE_D FILE after "
                    "its words")
    add_inputs(parser, "the streams; standard input if none is named")
    arguments = parser.parse_args()
    names = arguments.files or ["-"]
    progress = InputsProgress(parser.prog, names, arguments.quiet)
    if arguments.into is not None:
        os.makedirs(arguments.into, exist_ok=True)
        parted = bufr_archives.part_into(arguments.into, names, progress)
        for version, count in sorted(parted.counts.items()):
            print(f"version {version} messages {count} in {parted.path(version)}")
        return int(parted.left_out > 0)
    words = shlex.split(arguments.run)
    if not words:
        raise Fault("--run wants a command")
    kind = words[1] if words[0].rsplit("/", 1)[-1] == "bufr" and len(words) > 1 else ""
    if words[0] == "bufr":
        words[0] = program("bufr")
    if kind in ("show", "check"):
        return answer(parser.prog, names, kind, words, "-", progress)
    return bufr_archives.run_each(words, names, progress)


def main():
    halt_at_signals()
    return run_bufr(sys.argv[1:]) if sys.argv[1:2] and sys.argv[1] in COMMANDS else run_by_version()


def command():
    run("bufr" if sys.argv[1:2] and sys.argv[1] in COMMANDS else called("by-version"), main)
