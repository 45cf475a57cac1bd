"""The programs that run beside a call, when one ends early, the reader goes away, a signal comes, or the call does not end what it began."""
import os
import signal
import subprocess
import sys
import threading
import time

import pytest

import bufr
from bufr import contents, summary
from bufr.errors import Fault
from bufr.inputs import Listed
from conftest import TOP, command, message, named, write

SLEEP = "exec sleep 60"
BY_VERSION = [sys.executable, f"{TOP}/scripts/bufr-by-version", "--run", "bufr check"]


def script(path, *lines):
    write(path, "\n".join(["#!/bin/sh", *lines, ""]))
    os.chmod(path, 0o755)
    return path


@pytest.fixture
def died(monkeypatch):
    """The ends of threads by an exception. Each thread is slow, so that it has much to do when a call ends."""
    found = []
    monkeypatch.setattr(threading, "excepthook", found.append)
    threading.setprofile(lambda *_: time.sleep(0.0005))
    yield found
    threading.setprofile(None)


@pytest.fixture
def files():
    """The files that are open."""
    return lambda: sorted(os.listdir("/proc/self/fd"))


@pytest.mark.parametrize("end", ["a program is not there", "the reader goes away"])
@pytest.mark.parametrize("is_fed", [False, True])
def test_nothing_outlives_a_call(folder, monkeypatch, died, files, end, is_fed):
    rows = write(f"{folder}/rows", "place,length,master_version\n" + "0,49,46\n" * 30)
    monkeypatch.setenv("BUFR_LS", script(f"{folder}/bufr-ls", f"cat {rows}", SLEEP))
    monkeypatch.setenv("BUFR", f"{folder}/none" if end == "a program is not there" else script(f"{folder}/bufr", "echo message", SLEEP))
    # the pipe stays open, so its end does not come
    ours, theirs = os.pipe()
    os.write(theirs, message(46))
    before = threading.active_count(), files()
    lines = Listed("name", f"/dev/fd/{ours}" if is_fed else write(f"{folder}/file", message(46)), named(46)[1::2]).raw()
    if end == "a program is not there":
        with pytest.raises(Fault, match="cannot run"):
            next(lines)
    else:
        assert next(lines) == b"message\n"
        lines.close()
    assert (died, threading.active_count(), files()) == ([], *before)
    os.close(ours)
    os.close(theirs)


def test_a_program_that_leaves_another_one_holds_nothing_up(folder, monkeypatch):
    """The other one keeps the pipe open."""
    monkeypatch.setenv("BUFR_LS", script(f"{folder}/bufr-ls", f"sleep 60 & echo $! > {folder}/other; wait"))
    monkeypatch.setenv("BUFR", script(f"{folder}/bufr", f"while test ! -s {folder}/other; do sleep 0.01; done", "kill -KILL $$"))
    with pytest.raises(Fault, match="^bufr was killed by signal 9$"):
        list(Listed("name", write(f"{folder}/file", message(46)), named(46)[1::2]))
    with open(f"{folder}/other", encoding="ascii") as file:
        os.kill(int(file.read()), signal.SIGKILL)


@pytest.mark.parametrize("cut", ["rows", "listing"])
def test_a_line_that_is_cut_is_none(folder, monkeypatch, cut):
    """A program that is killed may leave a part of a line."""
    monkeypatch.setenv("BUFR_LS", script(f"{folder}/bufr-ls", "printf 'place,length,master_version\\n0,49,46\\n49,4'", *["kill -KILL $$"] * (cut == "rows")))
    monkeypatch.setenv("BUFR", script(f"{folder}/bufr", "printf 'message\\nsection1 98 0 0'", *["kill -KILL $$"] * (cut == "listing")))
    found = []
    with pytest.raises(Fault, match=f"^{'bufr-ls' if cut == 'rows' else 'bufr'} was killed by signal 9$"):
        found += Listed("name", write(f"{folder}/file", message(46)), named(46)[1::2])
    assert found == ["message"]


@pytest.mark.parametrize("cut", ["message\\nsection1 98 0", "# re", "# refused 1", "message\\nsection1 98 0 0 0 2 0 46 0\\ndescriptors 0121"])
@pytest.mark.parametrize("call", ["rows", "messages", "contents"])
def test_a_call_tells_that_a_program_was_killed_in_a_line(folder, monkeypatch, cut, call):
    monkeypatch.setenv("BUFR", script(f"{folder}/bufr", f"printf '{cut}'", "kill -KILL $$"))
    monkeypatch.delenv("BUFR_SELECT", raising=False)
    path = write(f"{folder}/file", message(46))
    with pytest.raises(bufr.BufrError, match="^bufr was killed by signal 9$"):
        if call == "contents":
            with contents.Files([path]) as files:
                summary.read(files, named(46)[1::2], with_data=True)
        else:
            list(bufr.rows(path, ["012101", "category"], each="012101", tables=46) if call == "rows" else bufr.messages(path, tables=46))


def test_a_filter_that_is_killed_or_not_there_is_told(folder, monkeypatch):
    """Rows go through grep."""
    os.mkdir(f"{folder}/bin")
    monkeypatch.delenv("BUFR_SELECT", raising=False)
    monkeypatch.setenv("PATH", f"{folder}/bin")
    path = write(f"{folder}/file", message(46))
    with pytest.raises(bufr.BufrError, match="^cannot run grep: No such file or directory$"):
        list(bufr.rows(path, ["012101"], tables=46))
    script(f"{folder}/bin/grep", "kill -KILL $$")
    with pytest.raises(bufr.BufrError, match="^grep was killed by signal 9$"):
        list(bufr.rows(path, ["012101"], tables=46))


@pytest.mark.parametrize("is_fed", [False, True])
def test_programs_that_print_much_before_they_read(folder, monkeypatch, is_fed):
    """Each prints more than a pipe holds, after which the other one is far from it."""
    rows, lines = "0,49,46\n" * 40000, "012101 273.15\n" * 40000
    monkeypatch.setenv("BUFR_LS", script(f"{folder}/bufr-ls", f"cat {write(f'{folder}/rows', 'place,length,master_version' + chr(10) + rows)}", "cat > /dev/null"))
    monkeypatch.setenv("BUFR", script(f"{folder}/bufr", f"cat {write(f'{folder}/lines', lines + 'message' + chr(10))}", "cat > /dev/null"))
    path = write(f"{folder}/file", message(46) * 10000)
    listed = Listed("name", path, named(46)[1::2])
    if is_fed:
        feeder = subprocess.Popen(["cat", path], stdout=subprocess.PIPE)
        listed = Listed("name", f"/dev/fd/{feeder.stdout.fileno()}", named(46)[1::2])
    assert len(list(listed)) == 40001
    assert listed.messages == 40000
    if is_fed:
        feeder.stdout.close()
        assert feeder.wait() == 0


def test_an_iterator_that_is_left_ends_with_the_interpreter(folder):
    """A caller may leave the messages of a file, and end."""
    path = write(f"{folder}/file", message(46) * 20000)
    script = f"import sys; sys.path.insert(0, {TOP + '/python'!r}); import bufr; found = bufr.messages({path!r}); print(next(found)['place'])"
    done = subprocess.run([sys.executable, "-c", script], capture_output=True, text=True, timeout=900)
    assert (done.returncode, done.stdout, done.stderr) == (0, "0\n", "")


def test_programs_of_a_call_whose_parent_forgets_its_children(folder):
    """Whoever ignores SIGCHLD hands that on to what it starts."""
    path = write(f"{folder}/file", message(46))
    for name in ("summary", "to-json"):
        words = [sys.executable, f"{TOP}/scripts/bufr-{name}", path]
        done = subprocess.run(words, capture_output=True, timeout=900, preexec_fn=lambda: signal.signal(signal.SIGCHLD, signal.SIG_IGN))
        assert (done.returncode, done.stderr) == (0, b"")
        assert done.stdout == subprocess.run(words, capture_output=True, timeout=900).stdout


@pytest.mark.parametrize("number", [signal.SIGINT, signal.SIGTERM, signal.SIGHUP])
@pytest.mark.parametrize("is_ignored", [False, True])
def test_a_signal_ends_a_call_that_does_not_ignore_it(folder, number, is_ignored):
    """`nohup` makes its command ignore one."""
    process = subprocess.Popen(BY_VERSION, stdin=subprocess.PIPE, stdout=subprocess.PIPE, stderr=subprocess.PIPE,
                               preexec_fn=lambda: signal.signal(number, signal.SIG_IGN if is_ignored else signal.SIG_DFL))
    process.stdin.write(message(46))
    process.stdin.flush()
    assert process.stdout.readline() == b"0 49 ok 1 0\n"
    process.send_signal(number)
    if not is_ignored:
        assert process.wait(900) == 128 + number
    out, error = process.communicate(message(46) if is_ignored else None, timeout=900)
    assert (out, error) == (b"49 49 ok 1 0\nframes 2 refused 0 skipped 0\n" if is_ignored else b"", b"")
    assert process.returncode == (0 if is_ignored else 128 + number)


def test_many_signals_end_all_programs(folder):
    """A terminal that is closed may send more than one."""
    script(f"{folder}/bufr", "echo $$ >> " + f"{folder}/started", f"while test $(wc -l < {folder}/started) -lt 3; do sleep 0.01; done", SLEEP)
    octets = b"".join(message(version) for version in (14, 18, 46))
    process = subprocess.Popen(BY_VERSION, stdin=subprocess.PIPE, stdout=subprocess.PIPE, stderr=subprocess.PIPE,
                               env={**os.environ, "BUFR": f"{folder}/bufr"})
    process.stdin.write(octets)
    process.stdin.flush()
    while not os.path.exists(f"{folder}/started") or len(open(f"{folder}/started", encoding="ascii").read().split()) < 3:
        time.sleep(0.01)
    while process.poll() is None:
        process.send_signal(signal.SIGHUP)
        process.send_signal(signal.SIGTERM)
    process.communicate(timeout=900)
    assert process.returncode in (128 + signal.SIGHUP, 128 + signal.SIGTERM, -signal.SIGHUP, -signal.SIGTERM)
    for word in open(f"{folder}/started", encoding="ascii").read().split():
        with pytest.raises(ProcessLookupError):
            os.kill(int(word), 0)
