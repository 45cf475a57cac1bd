"""The levels of `each`: a row begins at its field, so it has the fields that come before that in a replication only of the next turn."""
from __future__ import annotations

from typing import Any, Dict, FrozenSet, Iterable, Iterator, List, Optional, Sequence, Set, Tuple

from .tables import MOST_SEQUENCE_LEVELS, Tables

# How many fields are named.
MOST_NAMED = 5


def body_of(tables: Tables, descriptors: Sequence[str], depth: int = 0) -> List[Any]:
    """Return the fields of descriptors in order, with a list for each replication that may have several turns."""
    found: List[Any] = []
    place = 0
    while place < len(descriptors):
        descriptor = descriptors[place]
        place += 1
        if descriptor[0] == "3" and depth < MOST_SEQUENCE_LEVELS:
            found += body_of(tables, tables.members.get(descriptor, ()), depth + 1)
        elif descriptor[0] == "1":
            has_turns = descriptor[3:] != "001"
            if descriptor[3:] == "000":
                # the factor, which is 0 or 1 if it has one bit
                has_turns = "031000" not in descriptors[place:place + 1]
                found += descriptors[place:place + 1]
                place += 1
            body = body_of(tables, descriptors[place:place + int(descriptor[1:3])], depth)
            found += [body] if has_turns else body
            place += int(descriptor[1:3])
        elif descriptor[0] == "0" or descriptor.startswith("205"):
            found.append(descriptor)
    return found


def flat(body: List[Any]) -> Iterator[str]:
    """Yield the fields of a body, one after the other."""
    for item in body:
        if isinstance(item, list):
            yield from flat(item)
        else:
            yield item


def leading(body: List[Any], each: FrozenSet[str], is_replication: bool = False) -> Iterator[List[str]]:
    """Yield the fields that come before `each` in the turns of each replication around it, the innermost first."""
    for item in body:
        if isinstance(item, list):
            yield from leading(item, each, True)
    if is_replication:
        fields = list(flat(body))
        at = next((place for place, field in enumerate(fields) if field in each), 0)
        if at:
            yield fields[:at]


class Leading:
    """The fields that are asked for and come before `each` in a replication of the templates that were met; all fields are asked for
    without `asked`."""

    def __init__(self, each: Iterable[str], asked: Optional[Iterable[str]] = None) -> None:
        self.each = frozenset(each)
        self.asked = None if asked is None else frozenset(asked)
        self.met: Set[Tuple[Tables, str]] = set()
        self.fields: Dict[str, None] = {}
        self.first = ""
        # a template that has `each` in a replication, and one that has it alone
        self.repeated = self.alone = ""

    def take(self, tables: Tables, descriptors: Sequence[str]) -> None:
        """Take the template of a message."""
        key = tables, " ".join(descriptors)
        if key in self.met:
            return
        self.met.add(key)
        body = body_of(tables, descriptors)
        if self.each.intersection(field for item in body if isinstance(item, list) for field in flat(item)):
            self.repeated = self.repeated or key[1]
        elif self.each.intersection(item for item in body if not isinstance(item, list)):
            self.alone = self.alone or key[1]
        for fields in leading(body, self.each):
            found = [field for field in fields if (self.asked is None or field in self.asked) and field not in self.each]
            self.fields.update(dict.fromkeys(found))
            if found and not self.first:
                self.first = fields[0]

    def said(self, each: str, what: str) -> List[str]:
        """Return the warnings: `each` as the caller names it, and what has values of another level."""
        found = [self.said_of_fields(each, what)] if self.fields else []
        if self.repeated and self.alone:
            found.append(f"{each} is in a replication of {self.repeated}, but one field of {self.alone}, which has no levels: "
                         "part the messages by their category")
        return found

    def said_of_fields(self, each: str, what: str) -> str:
        names = list(self.fields)
        more = f" and {len(names) - MOST_NAMED} more" if len(names) > MOST_NAMED else ""
        listed = ", ".join(names[:MOST_NAMED]) + more if more or len(names) < 2 else f"{', '.join(names[:-1])} and {names[-1]}"
        come, those = ("comes", "that") if len(names) == 1 else ("come", "those")
        return (f"{each} is not the first field of its replication: {listed} {come} before it, so {what} {those} of the next level; "
                f"the replication begins with {self.first}")
