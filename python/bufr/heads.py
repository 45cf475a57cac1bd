"""What is in BUFR files by the heads of their messages, that is by sections 0, 1 and 3, as `bufr-ls` prints them."""
import os

from .lister import LUMP, Counts, Lumps, Moments, Tally, finish
from .processes import Process, program
from .starting import start
from .versions import table_paths, version_of

TYPE_CHECKING = False
if TYPE_CHECKING:
    from typing import Dict, Iterable, List, Optional, Tuple

    from .contents import Refusal
    from .given import Given
    from .skipped import Loss

GROUPS = ("centre", "category", "edition", "version", "descriptors")


class Count:
    """How many messages there are of a kind, how many subsets they announce, and how many of the messages are refused."""

    def __init__(self) -> None:
        self.messages = self.subsets = self.refused = 0

    def add(self, other: "Count") -> None:
        self.messages += other.messages
        self.subsets += other.subsets
        self.refused += other.refused


class Heads:
    """The messages of files by their heads. A message is refused if any data would be."""

    # whether the data are read too
    is_read = False

    def __init__(self, files: "List[Given]", tables: "Optional[List[str]]" = None) -> None:
        self.files, self.tables = files, tables
        self.all = Count()
        self.by: "Dict[str, Dict[str, Count]]" = {group: {} for group in GROUPS}
        self.of_file = [Count() for _ in files]
        # the octets of each file that are in no message
        self.between = [each.octets for each in files]
        self.first: "Optional[Tuple[int, ...]]" = None
        self.last: "Optional[Tuple[int, ...]]" = None
        self.reasons: "Dict[str, int]" = {}
        # the messages that are refused, if their places are known
        self.refusals: "List[Refusal]" = []
        self.losses: "List[List[Loss]]" = [[] for _ in files]
        # whether rows have the number of their file
        self.has_input = len(files) > 1

    def read_heads(self, listers: "List[Process]") -> None:
        """Read the files, by `bufr-ls` that runs once or twice."""
        faults, again = Faults(self.tables), []
        try:
            counts = self.counts_of(listers, faults)
            if counts is None:
                again = [start([each.path for each in self.files])]
                counts = self.counts_of(again, faults)
                assert counts is not None
            kinds = self.kinds(counts)
            self.put(kinds, refused_by_heads(kinds, faults))
        finally:
            for each in [*listers, *again]:
                each.end()
            faults.end()
        self.lose()

    def counts_of(self, listers: "List[Process]", faults: "Faults") -> "Optional[Counts]":
        """Count the messages. The faults of the first templates are looked for meanwhile. Return nothing if heads and times are listed
        apart, and a file grew before the second of them."""
        heads, *times = map(Lumps, listers)
        tally, moments, size = Tally(), Moments(), LUMP
        text, said = heads.first(), b""
        faults.ask(map(self.kind_of, Counts(dict.fromkeys(text.splitlines(True), 1), not times).heads))
        while text or said:
            if text:
                size = tally.take(text)
            if said:
                moments.take(said)
            text, said = heads.next(size), times[0].next() if times else b""
        for each in listers:
            finish(each)
        counts = Counts(tally.rows, not times)
        if times:
            counts.moments = moments.known()
        return counts if not times or moments.number == sum(tally.rows.values()) else None

    def kind_of(self, head: bytes) -> bytes:
        """Return a head without length and subsets."""
        kind = head.split(b",", 2)[2]
        return kind if self.has_input else b"1," + kind

    def kinds(self, counts: Counts) -> "Dict[bytes, Count]":
        """Count the messages by their kinds."""
        kinds: "Dict[bytes, Count]" = {}
        for head, times in counts.heads.items():
            length, subsets, _ = head.split(b",", 2)
            kind = self.kind_of(head)
            count = kinds.get(kind)
            if count is None:
                count = kinds[kind] = Count()
            count.messages += times
            if subsets:
                count.subsets += times * int(subsets)
            self.between[int(kind[:kind.index(b",")]) - 1] -= times * int(length)
        self.first, self.last = counts.span() or (None, None)
        return kinds

    def put(self, kinds: "Dict[bytes, Count]", reasons: "Dict[bytes, Dict[str, int]]") -> None:
        """Add the messages of each kind to the groups that have them."""
        for kind, count in kinds.items():
            at, edition, centre, category, master, local, descriptors, _ = kind.decode("latin-1").split(",")
            for reason, times in reasons.get(kind, {}).items():
                count.refused += times
                self.reasons[reason] = self.reasons.get(reason, 0) + times
            version = master if local in ("", "0") else f"{master} local {local}"
            groups = [self.by[group].setdefault(word, Count())
                      for group, word in zip(GROUPS, (centre, category, edition, version, descriptors))]
            for each in (self.all, self.of_file[int(at) - 1], *groups):
                each.add(count)

    def lose(self) -> None:
        """Find what is skipped and a loss, in files that have no message."""
        for at, each in enumerate(self.files):
            if not self.of_file[at].messages and each.octets:
                from .skipped import losses_of
                self.losses[at] = losses_of(each.path, each.octets, [])


class Faults:
    """Why kinds are refused for what the program finds in their heads. `bufr check` looks for faults of templates beside the call,
    by messages without data."""

    def __init__(self, tables: "Optional[List[str]]") -> None:
        self.tables = tables
        # of a version and descriptors
        self.known: "Dict[Tuple[int, str], str]" = {}
        self.checkers: "List[Tuple[Process, List[Tuple[int, str]]]]" = []

    def parts(self, kind: bytes) -> "Tuple[str, bool, Tuple[int, str]]":
        """Return why a kind is refused for its sections, whether no tables read it, and its template."""
        _, _, _, _, master, _, descriptors, reason = kind.decode("latin-1").split(",")
        version = version_of(int(master)) if master else None
        if not self.tables and master and version is None:
            return f"no table here reads version {int(master)}", True, (0, "")
        return reason, False, (version or 0, descriptors)

    def ask(self, kinds: "Iterable[bytes]") -> None:
        """Start to look for the faults of the templates of kinds."""
        asked: "Dict[int, List[Tuple[int, str]]]" = {}
        for kind in kinds:
            reason, _, template = self.parts(kind)
            if not reason and template not in self.known:
                self.known[template] = ""
                asked.setdefault(template[0], []).append(template)
        for version, templates in asked.items():
            tables = self.tables or table_paths(version)
            with open(os.memfd_create("templates"), "w+b") as file:
                file.write(b"".join(message_of(words.split()) for _, words in templates))
                file.flush()
                words = [program("bufr"), "check", "-b", tables[0], "-d", tables[1], "/dev/stdin"]
                self.checkers.append((Process(words, (1, 2), {0: file.fileno()}), templates))

    def of(self, template: "Tuple[int, str]") -> str:
        """Return the fault of a template that was asked for, or nothing."""
        while self.checkers:
            checker, templates = self.checkers[0]
            lines = str(checker.rest_of(1), "latin-1").splitlines()[:-1]
            finish(checker)
            for each, line in zip(templates, lines):
                if " refused X" in line:
                    self.known[each] = line.split(" ", 3)[3]
            checker.end()
            del self.checkers[0]
        return self.known[template]

    def end(self) -> None:
        for checker, _ in self.checkers:
            checker.end()


def refused_by_heads(kinds: "Dict[bytes, Count]", faults: Faults, with_templates: bool = True) -> "Dict[bytes, Dict[str, int]]":
    """Return the kinds that are refused for their sections or their descriptors, and those that no tables read, with the reasons.
    Without `with_templates` these are only those that no tables read."""
    found: "Dict[bytes, str]" = {}
    if with_templates:
        faults.ask(kinds)
    for kind in kinds:
        reason, is_unread, template = faults.parts(kind)
        if with_templates:
            reason = reason or faults.of(template)
        if is_unread or with_templates and reason:
            found[kind] = reason
    return {kind: {reason: kinds[kind].messages} for kind, reason in found.items()}


def message_of(descriptors: "List[str]") -> bytes:
    """Return a message that has descriptors, one subset and no data."""
    words = b"".join((int(word[0]) << 14 | int(word[1:3]) << 8 | int(word[3:])).to_bytes(2, "big") for word in descriptors)
    sections = b"\0\0\x16" + bytes(19) + (7 + len(words)).to_bytes(3, "big") + b"\0\0\1\x80" + words + b"\0\0\4\0"
    return b"BUFR" + (12 + len(sections)).to_bytes(3, "big") + b"\4" + sections + b"7777"
