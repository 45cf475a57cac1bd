"""The files of a call that programs read several times."""
import os
import stat
import sys

from .errors import Fault
from .processes import is_word

TYPE_CHECKING = False
if TYPE_CHECKING:
    from typing import List, Optional

PIECE = 1 << 20


class Given:
    """A file of a call: its name there, and a path by which programs can read it several times: UTF-8, and like no line of a listing."""

    def __init__(self, name: str, path: str) -> None:
        self.name, self.path = name, path
        self.octets = os.path.getsize(path)


def without_folders(names: "List[str]", command: str) -> "List[str]":
    """Return the names that are no folders, which are told; raise if all are."""
    folders = {name for name in names if name != "-" and os.path.isdir(name)}
    if folders and folders.issuperset(names):
        raise Fault(f"{names[0]} is a folder: name its files, as {os.path.join(names[0], '*')}")
    for name in sorted(folders):
        sys.stderr.write(f"{command}: {name} is a folder, and passed over\n")
    return [name for name in names if name not in folders]


class Files:
    """The files of a call. One that can be read only once (`-` is standard input) is kept in a folder up to the end. Folders beside
    files are told and passed over."""

    def __init__(self, names: "List[str]", command: str = "bufr") -> None:
        self.folder: "Optional[str]" = None
        names = without_folders(names, command)
        try:
            self.given = [Given(name, self.path_of(name, at)) for at, name in enumerate(names)]
        except BaseException:
            self.close()
            raise
        self.octets = sum(each.octets for each in self.given)

    def path_of(self, name: str, at: int) -> str:
        try:
            if name != "-" and stat.S_ISREG(os.stat(name).st_mode):
                with open(name, "rb"):
                    pass
                if not name.startswith(("-", "refused ")) and not name.endswith(("subset", "end")) and "\n" not in name and is_word(name):
                    return name
                os.symlink(os.path.abspath(name), self.beside(at))
                return self.beside(at)
            with open(0 if name == "-" else name, "rb", closefd=name != "-") as source, open(self.beside(at), "wb") as copy:
                for piece in iter(lambda: source.read(PIECE), b""):
                    copy.write(piece)
            return self.beside(at)
        except (OSError, ValueError) as error:
            raise Fault(f"cannot open {name}: {getattr(error, 'strerror', None) or error}") from error

    def beside(self, at: int) -> str:
        if self.folder is None:
            import tempfile
            self.folder = tempfile.mkdtemp(prefix="bufr.")
        return os.path.join(self.folder, f"input.{at + 1}")

    def close(self) -> None:
        if self.folder is not None:
            import shutil
            shutil.rmtree(self.folder, ignore_errors=True)

    def __enter__(self) -> "Files":
        return self

    def __exit__(self, *_: object) -> None:
        self.close()
