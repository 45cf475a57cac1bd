"""Programs that run beside this one, and where the package has its own."""
import os

try:
    # the module signal without its enumerations, which take long to load
    import _signal as signal  # type: ignore[import]
except ImportError:
    import signal

from .errors import Fault
from .versions import HERE, TOP

PIECE = 1 << 16
# The signals that end a call, and the programs that run beside it.
HALTING = (signal.SIGINT, signal.SIGTERM, signal.SIGHUP)
HALTED: "list[int]" = []
RUNNING = []


def program(name):
    """The path of the program `bufr` or `bufr-ls`: what the variable BUFR or BUFR_LS names, that of this package, of this
    checkout or of this installation, or the one in PATH."""
    named = os.environ.get(name.upper().replace("-", "_"))
    if named:
        return named
    crate = name.replace("-", "_")
    for paths in ((f"{HERE}/files/dist/x86_64-linux/{name}",),
                  (f"{TOP}/crates/{crate}/out/{crate}", f"{TOP}/dist/x86_64-linux/{name}"), (f"{TOP}/{name}",)):
        found = [path for path in paths if os.path.isfile(path) and os.access(path, os.X_OK)]
        if found:
            return max(found, key=os.path.getmtime)
    return name


def is_word(name):
    """Whether the programs take a name: it is UTF-8."""
    return not any("\udc80" <= octet <= "\udcff" for octet in name)


class Process:
    """A program that runs beside this one, with pipes at those of its files 0 to 2 that are named, and the files that `given` has for
    others. It inherits the files that this one inherited. It is in RUNNING from its start to its end, whatever signal comes
    meanwhile. The module subprocess does not do that, and takes long to load."""

    def __init__(self, words, piped, given=None, environment=None):
        self.words, self.status, self.pipes, theirs = words, None, {}, {}
        for file in piped:
            ours, other = os.pipe()
            self.pipes[file], theirs[file] = (other, ours) if file == 0 else (ours, other)
        actions = [(os.POSIX_SPAWN_DUP2, theirs[file], file) for file in theirs]
        actions += [(os.POSIX_SPAWN_DUP2, ours, file) for file, ours in (given or {}).items()]
        mask = signal.pthread_sigmask(signal.SIG_BLOCK, HALTING)
        try:
            self.number = os.posix_spawnp(words[0], words, os.environ if environment is None else environment,
                                          setsigdef=[signal.SIGPIPE], setsigmask=mask, file_actions=actions)
            RUNNING.append(self)
        except OSError as error:
            for file in piped:
                self.shut(file)
            raise Fault(f"cannot run {words[0]}: {error.strerror}") from error
        finally:
            signal.pthread_sigmask(signal.SIG_SETMASK, mask)
            for file in theirs.values():
                os.close(file)

    def shut(self, file):
        """Closes a pipe."""
        if file in self.pipes:
            os.close(self.pipes.pop(file))

    def rest_of(self, file):
        """What comes through a pipe until its end."""
        pieces, pipe = [], self.pipes[file]
        os.set_blocking(pipe, True)
        while not pieces or pieces[-1]:
            pieces.append(os.read(pipe, PIECE))
        return b"".join(pieces)

    def wait(self):
        """Waits for its end, and returns its status, below 0 for a signal."""
        if self.status is None:
            # once it is reaped its number may be that of another program
            os.waitid(os.P_PID, self.number, os.WEXITED | os.WNOWAIT)
            mask = signal.pthread_sigmask(signal.SIG_BLOCK, HALTING)
            try:
                self.status = os.waitstatus_to_exitcode(os.waitpid(self.number, 0)[1])
                RUNNING.remove(self)
            finally:
                signal.pthread_sigmask(signal.SIG_SETMASK, mask)
        return self.status

    def has_ended(self, within):
        """Waits for its end for some seconds, and returns whether it has come."""
        from time import monotonic, sleep
        until = monotonic() + within
        while self.status is None and not os.waitid(os.P_PID, self.number, os.WEXITED | os.WNOWAIT | os.WNOHANG):
            if monotonic() >= until:
                return False
            sleep(within / 10)
        return True

    def end(self):
        """Ends it, if it still runs."""
        if self.status is None:
            os.kill(self.number, signal.SIGKILL)
            self.wait()
        for file in list(self.pipes):
            self.shut(file)


def halt(number, _):
    """Ends a call at the first signal. Those that follow do not break its end off."""
    if not HALTED:
        HALTED.append(number)
        raise SystemExit(128 + number)


def tell_of_ends():
    """Makes this call get to know of the ends of its programs, though what started it may have left word to forget them."""
    if signal.getsignal(signal.SIGCHLD) == signal.SIG_IGN:
        signal.signal(signal.SIGCHLD, signal.SIG_DFL)


def halt_at_signals():
    """Makes the signals end this call and its programs, but for those that it was told to ignore."""
    for each in HALTING:
        if signal.getsignal(each) != signal.SIG_IGN:
            signal.signal(each, halt)


def end_all():
    """Ends all programs that run beside this one."""
    for each in list(RUNNING):
        each.end()
