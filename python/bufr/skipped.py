"""Octets of an input that are in no message, where they are a loss: a file without a message, and a message that is cut or broken.
The headings of bulletins, and whatever else is between messages, are none."""
from __future__ import annotations

import os
import re
import stat
from collections import deque
from io import FileIO
from typing import Deque, List, NamedTuple, Optional, Tuple

PIECE = 1 << 20
# How a message begins: its length is three octets, and its edition is below 8, which no character of a text is but the one that ends
# a bulletin, after a line. At the end of a file `BUFR` and fewer octets are a word of a text, if they are characters.
BEGINNING = re.compile(rb"BUFR(?!\r\r\n\x03|[\t\r\n -~]{0,3}\Z|\r?\n\x03\Z)(?:[\x00-\xff]{3}[\x00-\x07]|[\x00-\xff]{0,3}\Z)")
HELD = 7
# What no text has: all controls but those of lines and bulletins.
CONTROL = re.compile(rb"[\x00\x02\x04-\x08\x0e-\x1f\x7f]")
PACKED = {b"\x1f\x8b": "gzip", b"BZh": "bzip2", b"\xfd7zXZ\0": "xz", b"PK\3\4": "zip"}
NOTHING, TEXT, CUT = "no message", "text", "a message that is cut or broken"


def packed_by(head: bytes) -> Optional[str]:
    """Return what packed a file that begins so, if it is packed."""
    return next((name for magic, name in PACKED.items() if head.startswith(magic)), None)


def packed(packer: str) -> str:
    """Return why the octets of a packed file are lost."""
    return f"packed by {packer}; unpack it"


class Loss(NamedTuple):
    """Octets that are lost: their place, how many they are, and why."""

    place: int
    length: int
    why: str

    @property
    def reason(self) -> str:
        return f"skipped {self.length} octets: {self.why}"


class Skipped:
    """What is skipped of one input. It is told each message in order. The octets are read from the file `path`, up to the size that
    it has now, since a stream may grow; or `take` gets them as they come."""

    def __init__(self, path: Optional[str] = None) -> None:
        self.path = path
        self.most = os.stat(path).st_size if path is not None else 0
        self.file: Optional[FileIO] = None
        self.is_over = False
        self.losses: List[Loss] = []
        # the places at which messages seem to begin, up to the last message that was told
        self.begun: Deque[int] = deque()
        self.rest, self.head, self.size, self.is_text = b"", b"", 0, True
        self.messages = self.told = 0

    def take(self, piece: bytes) -> None:
        """Take the next octets."""
        self.head = self.head or piece[:8]
        self.is_text = self.is_text and not CONTROL.search(piece)
        octets = self.rest + piece
        start = self.size - len(self.rest)
        self.size += len(piece)
        # what may go on in the next piece is looked at again
        keep = max(len(octets) - HELD, 0)
        self.begun.extend(start + found.start() for found in BEGINNING.finditer(octets) if found.start() < keep)
        self.rest = octets[keep:]

    def read(self, end: Optional[int] = None) -> None:
        """Read the file up to a place, or to its end."""
        while self.path is not None and (end is None or self.size < end + HELD):
            # it is opened when it is read, since a call may have more files than can be open
            if self.file is None:
                self.file = open(self.path, "rb", buffering=0)
            piece = self.file.read(min(PIECE, self.most - self.size))
            if piece:
                self.take(piece)
            else:
                self.close()

    def message(self, place: int, length: int) -> None:
        """Take the place and the length of the next message."""
        self.read(place + length)
        self.lose(place)
        while self.begun and self.begun[0] < place + length:
            self.begun.popleft()
        self.messages += 1
        self.told = place + length

    def lose(self, end: int) -> None:
        """Take what began before a place, and is no message."""
        begun = []
        while self.begun and self.begun[0] < end:
            begun.append(self.begun.popleft())
        for place, stop in zip(begun, [*begun[1:], end]):
            if place >= self.told:
                self.losses.append(Loss(place, stop - place, CUT))

    def end(self) -> List[Loss]:
        """Return the losses, after the last message."""
        if self.is_over:
            return self.losses
        self.is_over = True
        self.read()
        start = self.size - len(self.rest)
        self.begun.extend(start + found.start() for found in BEGINNING.finditer(self.rest))
        self.rest = b""
        packer = packed_by(self.head) if not self.messages else None
        if packer is None and (self.messages or not self.is_text):
            self.lose(self.size)
        if not self.messages and not self.losses and self.size:
            self.losses.append(Loss(0, self.size, packed(packer) if packer else TEXT if self.is_text else NOTHING))
        return self.losses

    def close(self) -> None:
        if self.file is not None:
            self.file.close()
        self.path = self.file = None


def losses_of(path: str, octets: int, places: List[Tuple[int, int]]) -> List[Loss]:
    """Return what of a file is skipped and a loss, by the places and lengths of its messages."""
    with open(path, "rb") as head:
        packer = packed_by(head.read(8))
    if packer and not places:
        return [Loss(0, octets, packed(packer))]
    skipped = Skipped(path)
    try:
        for place, length in places:
            skipped.message(place, length)
        return skipped.end()
    finally:
        skipped.close()


def is_regular(path: str) -> bool:
    """Whether a path is a file that can be read, and read again."""
    try:
        return stat.S_ISREG(os.stat(path).st_mode) and os.access(path, os.R_OK)
    except OSError:
        return False
