"""Archives, encoded listings and files for each version of the tables: what `by-version` writes. Python 3 with its standard
library alone."""
import os
import re

from . import streams as bufr_streams
from .commands import called
from .errors import Ended, Fault
from .processes import Process, end_all, program
from .streams import Fed, Inputs, Output, leave_out, note, say, tables_of
from .versions import VERSIONS, version_of

NEWEST = VERSIONS[-1]
INPUT = re.compile(rb" input ([0-9]+)")
SECTION_1 = re.compile(rb"^section1(?: [0-9]+){6} ([0-9]+) ", re.M)


def counted(counts):
    """How many messages take each version, in words."""
    return ", ".join(f"{count} of {version}" for version, count in sorted(counts.items()))


class Target:
    """A file that is written under another name, and put in its place whole; what is no regular file is written itself."""

    def __init__(self, path):
        self.path = os.path.realpath(path)
        is_new = not os.path.exists(self.path)
        self.written = f"{self.path}.{os.getpid()}.new" if is_new or os.path.isfile(self.path) else self.path
        self.mode = None if is_new or self.written == self.path else os.stat(self.path).st_mode & 0o7777

    def put(self):
        if self.written != self.path:
            if self.mode is not None:
                os.chmod(self.written, self.mode)
            os.replace(self.written, self.path)

    def drop(self):
        if self.written != self.path and os.path.exists(self.written):
            os.remove(self.written)


class Archiving(Fed):
    """A program that makes an archive of what it is fed."""

    def __init__(self, version, target):
        self.target = target
        super().__init__([program("bufr"), "add", *tables_of(version), "-o", target.written, "--", "/dev/stdin"])


class Archives:
    """The archives that `add` makes of the messages of some inputs. Without `{}` in the name there is one at the most."""

    def __init__(self, inputs, out):
        self.inputs, self.out = inputs, out
        self.programs, self.targets, self.counts, self.refused = {}, [], {}, 0

    def has_room(self):
        return sum(each.owed for each in self.programs.values()) < bufr_streams.ROOM

    def give(self, part):
        if part.version is None:
            self.refused += part.count
            return
        if part.version == 0:
            self.refused += part.count
            leave_out("bufr", self.inputs, part)
            return
        self.counts[part.version] = self.counts.get(part.version, 0) + part.count
        if len(self.counts) > 1 and "{}" not in self.out:
            # there is nothing to write: the others are only counted
            for each in self.programs.values():
                each.process.end()
            self.programs = {}
        else:
            self.of(part.version).put(part.octets()[0])

    def of(self, version):
        if version not in self.programs:
            note(version)
            self.targets.append(Target(self.out.replace("{}", str(version))))
            self.programs[version] = Archiving(version, self.targets[-1])
        return self.programs[version]

    def waits(self):
        return [(each.to, bufr_streams.select.POLLOUT) for each in self.programs.values() if each.has_unsent()]

    def act(self, file):
        for each in self.programs.values():
            if file == each.to:
                each.send()
                if each.is_gone:
                    raise Ended(2)

    def finish(self):
        if len(self.counts) > 1 and "{}" not in self.out:
            raise several(self.counts)
        if not self.programs and ("{}" not in self.out or self.refused):
            self.of(NEWEST)
        status, written = int(self.refused > 0), []
        for version, each in sorted(self.programs.items()):
            text, ended = each.finish()
            if ended not in (0, 1):
                fail_after(written)
            each.target.put()
            written.append(each.target.path)
            status = max(status, ended)
            extra = self.refused if version == max(self.programs) else 0
            print_last(text, self.out, version, written, extra)
        return status

    def drop(self):
        for target in self.targets:
            target.drop()


def several(counts):
    return Fault(f"an archive has tables of one version, and these messages take several ({counted(counts)}): put {{}} into "
                 "the name after -o for an archive of each version, or choose one for all, as by BUFR_TABLES=46")


def fail_after(written):
    """Ends the call after a program that said why it failed, and names the archives that are written."""
    for path in written:
        say("bufr", f"{path} was written before")
    raise Ended(2)


def print_last(text, out, version, written, refused=0):
    """Prints the last line of `add` or `merge`, with its version before it if the name of the archive has one. It counts so many
    more frames as refused. If it can't be written, the archives that are written are named."""
    words = text.split()
    if refused:
        words[1], words[3] = b"%d" % (int(words[1]) + refused), b"%d" % (int(words[3]) + refused)
    line = b" ".join([b"%d" % version] * ("{}" in out) + words) + b"\n"
    to = Output()
    try:
        to.put(line)
        to.flush()
    except Fault as fault:
        if "{}" not in out:
            raise
        say("bufr", fault)
        fail_after(written)


def add(out, names):
    inputs = Inputs(names)
    archives = Archives(inputs, out)
    try:
        bufr_streams.pump(inputs, archives)
        return archives.finish()
    finally:
        end_all()
        archives.drop()


class Versions:
    """How many messages of each version there are in each input, and the first input with one that no table here reads."""

    def __init__(self, inputs):
        self.inputs, self.counts, self.unread = inputs, {}, None

    def has_room(self):
        return True

    def give(self, part):
        if part.version == 0 and not self.unread:
            self.unread = part.number, f"no table here reads version {part.named} of the message at {part.places()[0]}"
        if part.version:
            of_it = self.counts.setdefault(part.number, {})
            of_it[part.version] = of_it.get(part.version, 0) + part.count

    def waits(self):
        return []

    def totals(self):
        """How many messages of each version there are in all."""
        totals = {}
        for counts in self.counts.values():
            for version, count in counts.items():
                totals[version] = totals.get(version, 0) + count
        return totals

    def first_wrong(self):
        """The index of the first input whose messages say that it is no archive, and why; or none."""
        mixed = [(number, f"its messages take tables of several versions ({counted(counts)})")
                 for number, counts in sorted(self.counts.items()) if len(counts) > 1]
        return min([*mixed[:1], *([self.unread] if self.unread else [])], default=None)

    def chosen(self, version, count):
        """The indices of those of the first inputs that go to the tables of a version; inputs without messages go to the first."""
        first = min(self.totals(), default=NEWEST)
        return [number for number in range(count) if min(self.counts.get(number, {first: 0})) == version]


def in_memory(path):
    """A path by which programs can read a file twice: that of a copy in memory, if it is no regular file."""
    if bufr_streams.is_regular(path):
        return path
    file = bufr_streams.opened(path)
    copy = os.memfd_create("archive", 0)
    try:
        while True:
            piece = os.read(file, bufr_streams.ROOM)
            if not piece:
                return f"/proc/self/fd/{copy}"
            while piece:
                piece = piece[os.write(copy, piece):]
    finally:
        os.close(file)


def merge(out, names):
    paths = []
    for number, name in enumerate(names, 1):
        try:
            paths.append(in_memory(name))
        except OSError as error:
            raise Fault(f"read failed input {number}") from error
    versions = Versions(Inputs(paths))
    try:
        bufr_streams.pump(versions.inputs, versions)
    finally:
        end_all()
    totals, wrong, written = versions.totals(), versions.first_wrong(), []
    if "{}" not in out and len(totals) > 1 and not versions.unread:
        raise several(totals)
    if wrong:
        said = f"bufr: not an archive input {wrong[0] + 1}: {wrong[1]}\n".encode()
        fail_at_first(said, paths, versions, sorted(totals) or [NEWEST], written)
    # without messages there is no archive to write under a name with {}, but each input has to be one
    is_written = bool(totals) or "{}" not in out
    for version in sorted(totals) or [NEWEST]:
        name = out.replace("{}", str(version)) if is_written else os.devnull
        note(version)
        text, said = merged(version, name, paths, versions.chosen(version, len(paths)), written)
        if text is None:
            fail_at_first(said, paths, versions, [other for other in sorted(totals) if other > version], written)
        if is_written:
            print_last(text, out, version, written)
    return 0


def merged(version, out, paths, chosen, written):
    """Merges archives of one version. Returns the last line, or none if the program failed, and what it said then."""
    target = Target(out)
    words = [program("bufr"), "merge", *tables_of(version), "-o", target.written, "--", *(paths[number] for number in chosen)]
    try:
        process = Process(words, (1, 2))
        text, said = process.rest_of(1), process.rest_of(2)
        if process.wait():
            # the number of an input is that in the whole call
            return None, INPUT.sub(lambda found: b" input %d" % (chosen[int(found[1]) - 1] + 1), said)
        target.put()
        written.append(target.path)
        return text, b""
    finally:
        end_all()
        target.drop()


def fail_at_first(said, paths, versions, others, written):
    """Ends the call with what was said of an input, or with what the program says of an earlier one under other versions."""
    for version in others:
        found = INPUT.search(said)
        chosen = versions.chosen(version, int(found[1]) - 1) if found else []
        if chosen:
            said = merged(version, os.devnull, paths, chosen, [])[1] or said
    os.write(2, said)
    fail_after(written)


# ---- encode: each message by the version in its section1

class Block:
    """The lines of a listing from the end of a message to that of the next one."""

    def __init__(self, text, line):
        self.text, self.lines = text, text.count(b"\n")
        found = SECTION_1.search(text)
        named = int(found[1]) if found else None
        self.named, self.version = named, None
        if named is not None and named <= 255:
            self.version = version_of(named) or 0
            self.line = line + text.count(b"\n", 0, found.start())


def blocks_of(text):
    """The blocks of a listing."""
    blocks, start, line, at = [], 0, 1, -1
    while True:
        at = text.find(b"\nend", at + 1)
        stop = at + 4
        if at < 0:
            break
        if text[stop:stop + 2] == b"\r\n":
            stop += 2
        elif text[stop:stop + 1] == b"\n":
            stop += 1
        elif stop != len(text):
            continue
        blocks.append(Block(text[start:stop], line))
        line += blocks[-1].lines
        start = stop
        at = stop - 2
    if start < len(text):
        blocks.append(Block(text[start:], line))
    return blocks


def encoded(version, options, blocks):
    """Encodes the blocks of a version at their lines. Returns the octets, or the fault and where it is: its kind (0 for one of
    the listing, 1 for one of a message) and its line or the number of its message."""
    listing = memoryview(b"".join(block.text if block.version == version else b"\n" * block.lines for block in blocks))
    file = os.memfd_create("listing")
    try:
        while listing:
            listing = listing[os.write(file, listing):]
        process = Process([program("bufr"), "encode", *options, *tables_of(version), "/dev/stdin"], (1, 2), {0: file})
        octets, said = process.rest_of(1), process.rest_of(2)
    finally:
        os.close(file)
    if process.wait() == 0:
        return octets, None
    said = said.decode("utf-8", "replace").rstrip("\n")
    of_listing = re.match(r"bufr: listing: \S+ \S+ (\d+)", said)
    if of_listing:
        return b"", (0, int(of_listing[1]), said)
    of_message = re.match(r"bufr: message (\d+)(: .*)", said)
    if not of_message:
        raise Fault(said.removeprefix("bufr: "))
    ours = [number for number, block in enumerate(blocks, 1) if block.version == version]
    number = ours[int(of_message[1]) - 1]
    return b"", (1, number, f"bufr: message {number}{of_message[2]}")


def encode(options, name):
    file = bufr_streams.opened(name)
    try:
        with open(file, "rb") as listing:
            blocks = blocks_of(listing.read())
    except OSError as error:
        raise Fault("read failed input 1") from error
    versions = sorted({block.version for block in blocks if block.version}) or [NEWEST]
    faults = [(0, block.line, f"bufr: listing: no table here reads version {block.named} of line {block.line}")
              for block in blocks if block.version == 0]
    for block in blocks:
        block.version = versions[0] if block.version is None else block.version
    octets = {}
    for version in versions:
        note(version)
        octets[version], fault = encoded(version, options, blocks)
        faults += [fault] if fault else []
    if faults:
        raise Fault(min(faults)[2].removeprefix("bufr: "))
    out, at = Output(), dict.fromkeys(versions, 0)
    for block in blocks:
        here, start = octets[block.version], at[block.version]
        stop = start + int.from_bytes(here[start + 4:start + 7], "big") if start < len(here) else start
        out.put(here[start:stop])
        at[block.version] = stop
    out.flush()
    return 0


# ---- the command line of by-version

class Parted:
    """The messages of some inputs, in a file for each version."""

    def __init__(self, inputs, folder):
        self.inputs, self.folder = inputs, folder
        # a file is written under another name, and put in its place whole: it may be one of the inputs
        self.files, self.counts, self.left_out, self.is_put = {}, {}, 0, False

    def path(self, version):
        return os.path.join(self.folder, f"version_{version}.bufr")

    def has_room(self):
        return True

    def waits(self):
        return []

    def give(self, part):
        if part.version:
            self.counts[part.version] = self.counts.get(part.version, 0) + part.count
            if part.version not in self.files:
                self.files[part.version] = open(f"{self.path(part.version)}.new", "wb")
            self.files[part.version].write(b"".join(part.frames()))
            return
        for place, octets in zip(part.places(), part.frames()):
            why = f"master table version {part.named}" if part.version == 0 else \
                f"edition {octets[7]}" if octets[7] not in (3, 4) else f"master table {octets[11]}" if octets[11] else "sections that do not fit"
            say(called("by-version"), f"{self.inputs.names[part.number]}: {why} at {place}: left out")
            self.left_out += 1

    def put(self):
        for version, file in self.files.items():
            file.close()
            os.replace(f"{self.path(version)}.new", self.path(version))
        self.is_put = True

    def drop(self):
        """Removes the files that are not in their places."""
        for version in self.counts:
            if not self.is_put and os.path.exists(f"{self.path(version)}.new"):
                os.remove(f"{self.path(version)}.new")


def part_into(folder, names, progress=None):
    inputs = Inputs(names, "-", progress)
    parted = Parted(inputs, folder)
    try:
        bufr_streams.pump(inputs, parted)
        parted.put()
    finally:
        end_all()
        parted.drop()
    return parted


def run_each(words, names, progress=None):
    """Runs a command for each version on a file of its messages, and returns the greatest of its statuses."""
    import tempfile
    with tempfile.TemporaryDirectory(prefix="by-version.") as folder:
        parted = part_into(folder, names, progress)
        status = int(parted.left_out > 0)
        try:
            for version in sorted(parted.counts):
                here = [word.replace("{}", str(version)) for word in words]
                status = max(status, abs(Process([*here, *tables_of(version), parted.path(version)], ()).wait()))
        finally:
            end_all()
    return min(status, 2)
