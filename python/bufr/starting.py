"""The start of `bufr-ls` on the files of a call. What counts its rows is loaded while it runs, so nothing here takes long to load."""
import os
import stat

from .processes import Process, is_word, program

TYPE_CHECKING = False
if TYPE_CHECKING:
    from typing import List

# What bufr-ls is asked for: the head of a message, which is its length, its subsets and its kind, and its time.
OWN, KIND = "length,subsets", "edition,centre,category,master_version,local_version,descriptors,reason"
TIME = "year,month,day,hour,minute,second"
# The octets that a pipe has room for, so that bufr-ls seldom waits for this program.
ROOM = 1 << 20
F_SETPIPE_SZ = 1031
# Of how many messages that begin in so many octets the times differ, if there are many.
BEGINNING, MANY = 1 << 14, 10


def lister(paths: "List[str]", columns: str) -> Process:
    """Start `bufr-ls`."""
    process = Process([program("bufr-ls"), "-c", columns, "--", *paths], (1, 2))
    widen(process.pipes[1])
    return process


def widen(pipe: int) -> bool:
    """Make a pipe long, and return whether it could be done."""
    import fcntl
    try:
        return fcntl.fcntl(pipe, F_SETPIPE_SZ, ROOM) >= ROOM
    except OSError:
        return False


def start(paths: "List[str]", first: str = "", last: str = f",{TIME}") -> Process:
    """Start `bufr-ls` for heads and times. Each column takes its time: without first columns the number of an only file is not asked
    for."""
    return lister(paths, f"{first}{OWN},{'input,' * (first != '' or len(paths) > 1)}{KIND}{last}")


def start_all(paths: "List[str]") -> "List[Process]":
    """Start `bufr-ls`: twice side by side, for heads and for times, if the messages seem to have many times and there are processors for
    that. Together they print fewer rows that differ, and shorter ones."""
    with open(paths[0], "rb", buffering=0) as file:
        begun = file.read(BEGINNING).split(b"BUFR")
    # the octets of section 1 that have the time in each edition
    if len({each[16:26] for each in begun}) < MANY or len(os.sched_getaffinity(0)) < 3:
        return [start(paths)]
    heads = start(paths, last="")
    try:
        return [heads, lister(paths, f"{TIME},subsets")]
    except BaseException:
        heads.end()
        raise


def octets_of(names: "List[str]") -> int:
    """Return how many octets files have, or 0 if some are none that can be read twice."""
    octets = 0
    try:
        for name in names:
            found = os.stat(name)
            if not stat.S_ISREG(found.st_mode):
                return 0
            octets += found.st_size
    except (OSError, ValueError):
        return 0
    return octets


def start_early(words: "List[str]", most: int) -> "List[Process]":
    """Start `bufr-ls` on the words of a call, if they are the names of files of more than so many octets, and no options."""
    if any(word.startswith("-") or not is_word(word) for word in words) or octets_of(words) <= most:
        return []
    return start_all(words)
