"""What the program prints, for calls of the package: its lines while they come, its faults as exceptions."""
from __future__ import annotations

import os
import re
import stat
import subprocess
import sys
from contextlib import contextmanager
from typing import IO, Any, Iterable, Iterator, List, Optional, Sequence, Tuple, Union

from .errors import BufrError, Fault
from .processes import PIECE, is_word, program
from .programs import launcher
from .versions import HERE, VERSIONS, read_version, table_paths

PathLike = Union[str, bytes, "os.PathLike[str]", "os.PathLike[bytes]"]
TablesLike = Union[None, int, Sequence[PathLike]]
LEFT_OUT = re.compile(r"^bufr(?:-by-version)?: (.*): no table here reads version (\d+) of the message at (\d+)$", re.M)
BY_VERSION = [sys.executable, "-IS", os.path.join(HERE, "__main__.py"), "by-version"]


def paths_of(tables: TablesLike) -> Optional[List[str]]:
    """Return the files of Tables B and D that a caller names, or None where each message is read under its own."""
    if tables is None:
        return None
    try:
        if isinstance(tables, int):
            return table_paths(read_version(str(tables)))
        if not isinstance(tables, (str, bytes, os.PathLike)):
            b_path, d_path = tables
            return [os.fsdecode(b_path), os.fsdecode(d_path)]
    except Fault as fault:
        raise BufrError(str(fault)) from None
    except (TypeError, ValueError):
        pass
    raise BufrError(f"tables is a version from 0 to {VERSIONS[-1]}, as a number, or a pair of paths of Tables B and D, not {tables!r}")


def words_of(command: str, tables: Optional[List[str]]) -> List[str]:
    """Return the words that run a command of the program under these tables, or under those of each message.

    The program is the one that the variable BUFR names, or else that of this package.
    """
    if tables is not None:
        return [program("bufr"), command, "-b", tables[0], "-d", tables[1]]
    if os.environ.get("BUFR"):
        return [*BY_VERSION, command]
    return ["/bin/sh", launcher(), command]


def words_to_show(names: List[str], tables: Optional[List[str]]) -> List[str]:
    """Return the words that show one file, or several under the tables of each message: then a line `# NAME` is before each."""
    if len(names) > 1:
        return [*BY_VERSION, "--run", "bufr show", "--", *names]
    return [*words_of("show", tables), "--", *names]


def plain_name(name: str) -> str:
    """Return a name of the same file that is not like the beginning of `# refused`, nor like an option."""
    return f"./{name}" if name.startswith(("-", "refused ")) else name


class Running:
    """A program that runs beside this one. What it says on standard error is kept in a file, so nothing has to take it in meanwhile."""

    def __init__(self, words: Sequence[str], stdin: Union[None, int, IO[bytes]] = subprocess.DEVNULL,
                 through: Optional[Sequence[str]] = None) -> None:
        self.words, self.through = words, through
        self.processes: List[subprocess.Popen[bytes]] = []
        self.said: Optional[int] = os.memfd_create("said")
        environment = {key: value for key, value in os.environ.items() if key not in ("BUFR_TABLES", "BUFR_VERBOSE")}
        try:
            self.process = self.start(words, stdin=stdin, stderr=self.said, env=environment)
            self.output: IO[bytes] = self.process.stdout  # type: ignore[assignment]
            if through is not None:
                with self.output as shown:
                    self.output = self.start(through, stdin=shown, env={**environment, "LC_ALL": "C"}).stdout  # type: ignore[assignment]
        except BufrError:
            self.close()
            raise

    def start(self, words: Sequence[str], **how: Any) -> "subprocess.Popen[bytes]":
        try:
            self.processes.append(subprocess.Popen(words, stdout=subprocess.PIPE, **how))
        except OSError as error:
            raise BufrError(f"cannot run {words[0]}: {error.strerror}") from None
        return self.processes[-1]

    @contextmanager
    def to_the_end(self) -> Iterator[None]:
        """Raise what ended the program instead of what is wrong with its last line, which it leaves cut if it is killed."""
        try:
            yield
        except (IndexError, KeyError, ValueError):
            if not self.output.read(1):
                self.finish()
            raise

    def finish(self) -> Tuple[int, str]:
        """Wait for the end. Return the status, 0 or 1, and what was said; raise what went wrong."""
        statuses = [process.wait() for process in self.processes]
        said = b""
        while self.said is not None:
            piece = os.pread(self.said, PIECE, len(said))
            if not piece:
                break
            said += piece
        if self.through is not None and statuses[1] not in (0, 1):
            raise error_of(self.through, statuses[1], b"")
        if statuses[0] not in (0, 1):
            raise error_of(self.words, statuses[0], said)
        return statuses[0], said.decode("utf-8", "replace")

    def close(self) -> None:
        """End the program, if it still runs."""
        for process in self.processes:
            process.kill()
            process.wait()
            process.stdout.close()  # type: ignore[union-attr]
        if self.said is not None:
            os.close(self.said)
            self.said = None


def error_of(words: Sequence[str], status: int, said: bytes) -> BufrError:
    """Return what went wrong with a program that ends with another status than 0 and 1: its last line, or that it was killed."""
    if status < 0 or status > 128:
        return BufrError(f"{os.path.basename(words[0])} was killed by signal {-status if status < 0 else status - 128}")
    lines = [line for line in said.decode("utf-8", "replace").splitlines() if not LEFT_OUT.match(line)]
    return BufrError(re.sub(r"^bufr(?:-\S+)?: ", "", (lines or [f"{words[0]} ends with {status}"])[-1]))


def files_of(files: Union[PathLike, Iterable[PathLike]]) -> List[str]:
    """Return the names of one file or of several."""
    if isinstance(files, (str, bytes, os.PathLike)):
        return [file_of(files)]
    try:
        return [file_of(file) for file in files]
    except TypeError:
        raise BufrError(f"files is a path or a list of paths, not {files!r}") from None


def file_of(file: PathLike) -> str:
    """Return the name of a file."""
    if not isinstance(file, (str, bytes, os.PathLike)):
        raise BufrError(f"a file is named by a path, not by {file!r}")
    name = os.fsdecode(file)
    if not is_word(name):
        raise BufrError(f"the name of a file has to be UTF-8: {os.fsencode(name)!r}")
    if os.path.isdir(name):
        raise BufrError(f"{name} is a folder: name its files, as glob.glob(\"{os.path.join(name, '*.bufr')}\") does")
    if "*" in name and not os.path.exists(name):
        raise BufrError(f"{name} is a pattern, and no file: glob.glob(\"{name}\") names its files")
    try:
        if stat.S_ISREG(os.stat(name).st_mode):
            os.close(os.open(name, os.O_RDONLY))
    except (OSError, ValueError) as error:
        raise BufrError(f"cannot open {name}: {getattr(error, 'strerror', None) or error}") from None
    return name


def left_out(said: str) -> Iterator[Tuple[str, int, str]]:
    """Yield the files and the places of messages that no tables here read, and the reasons."""
    for name, version, place in LEFT_OUT.findall(said):
        yield name, int(place), f"no table here reads version {version}"
