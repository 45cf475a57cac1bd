"""The exceptions of the package."""


class BufrError(Exception):
    """What the program says of a fault, in one line, or that it was killed."""


class Refused(BufrError):
    """A message that is refused, or octets that are skipped and a loss.

    Attributes
    ----------
    file : str
        The file that has it.
    place : int
        Its place in the file, in octets from 0.
    reason : str
        The refusal, as ``X1 UnknownElement 063255``, or ``skipped 300 octets: no message``.
    """

    def __init__(self, file: str, place: int, reason: str) -> None:
        super().__init__(f"{file}: {'at' if reason.startswith('skipped ') else 'refused'} {place} {reason}")
        self.file, self.place, self.reason = file, place, reason


class Fault(Exception):
    """What is wrong with the call of a command, a table or a listing, in one line."""


class Ended(Exception):
    """The end of a command with a status, of which a line on standard error was said before."""

    def __init__(self, status: int) -> None:
        super().__init__(status)
        self.status = status


class Missing(BufrError, ImportError):
    """A package that a call needs, and that is not installed."""
