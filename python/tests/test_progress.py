"""How far a long work is, on a terminal."""
import os
import pty
import re
import shlex
import subprocess
import sys
import threading

import pytest

from conftest import TOP, message, text, write


# A command that begins to say how far it is once it is so many seconds old, and goes on without a pause.
BEGUN = f"""import sys
sys.path.insert(0, {TOP + '/python'!r})
from bufr import progress
progress.FIRST, progress.EACH = float(sys.argv[1]), 0
del sys.argv[:2]
from bufr.__main__ import main
main()
"""


def told(words, given, seconds):
    """What a command writes on a terminal as standard error, if it says how far it is after so many seconds."""
    ours, theirs = pty.openpty()
    with subprocess.Popen([sys.executable, "-c", BEGUN, str(seconds), *words], stdin=subprocess.PIPE, stdout=subprocess.DEVNULL,
                          stderr=theirs) as process:
        os.close(theirs)
        reader = threading.Thread(target=process.communicate, args=(given,))
        reader.start()
        found = read_all(ours)
        reader.join()
        assert process.wait() == 0
    return found


def read_all(ours):
    """What is written on a terminal, until nobody has it open."""
    found = b""
    while True:
        try:
            piece = os.read(ours, 4096)
        except OSError:
            piece = b""
        if not piece:
            os.close(ours)
            return found.decode()
        found += piece


MAPPING = """{"template": "012101", "time": "t", "fields": {"012101": "k"}, "section1": {"originating_centre": 98,
"originating_sub_centre": 0, "update_sequence_number": 0, "data_category": 0, "international_data_sub_category": 2,
"local_data_sub_category": 0, "master_table_version": 46, "local_table_version": 0}}"""
ROW = b"2024-01-15T12:00Z,273.15\n"
LISTING = b"message\nsection1 98 0 0 0 2 0 46 0\ntime 2024 1 15 12 0 0\nflags\ndescriptors 012101\nsubset\n012101 1.00\nend\n"


# A message as bufr-to-json writes it, by hand.
OBJECT = (b'{"section1": {"originating_centre": 98, "originating_sub_centre": 0, "update_sequence_number": 0, "data_category": 0, '
          b'"international_data_sub_category": 2, "local_data_sub_category": 0, "master_table_version": 46, "local_table_version": 0}, '
          b'"time": {"year": 2024, "month": 1, "day": 15, "hour": 12, "minute": 0, "second": 0}, "descriptors": ["012101"], '
          b'"subsets": []}\n')


@pytest.mark.parametrize("name", ["annotate", "from-csv", "geojson", "to-json", "lint", "from-json", "by-version --into {}", "by-version --run 'bufr check'",
                                  "by-version --run true"])
def test_a_long_work_says_how_far_it_is(name, folder):
    """Octets that were read; the line is erased at the end. `--quiet` and a short work say nothing."""
    name, *rest = shlex.split(name.replace("{}", f"{folder}/out"))
    words = [f"bufr-{name}", *rest]
    each = {"lint": LISTING, "from-json": OBJECT, "from-csv": ROW}.get(name, message(46))
    first = b"t,k\n" if name == "from-csv" else b""
    if name == "from-csv":
        words.append(write(f"{folder}/m.json", MAPPING))
    found = told(words, first + each * 3001, 0)
    assert re.fullmatch(rf"(\rbufr-{name}: [\d,]+ octets\x1b\[K)+\r\x1b\[K", found), found
    numbers = [int(number.replace(",", "")) for number in re.findall(r"[\d,]+(?= octets)", found)]
    assert numbers == sorted(numbers) and len(first + each) < numbers[-1] <= len(first + each * 3001)
    assert told([*words, "--quiet"], first + each * 2, 0) == ""
    assert told(words, first + each * 2, 1000) == ""


def test_the_first_line_comes_after_a_second(monkeypatch, capsys):
    """The next ones come after a fifth of a second each."""
    from bufr import progress
    now = [100.0]
    monkeypatch.setattr(progress.time, "monotonic", lambda: now[0])
    monkeypatch.setattr(progress.os, "isatty", lambda file: True)
    shown = progress.Progress("name", 5000)
    said = []
    for moment in (100.5, 100.9, 101.0, 101.1, 101.3, 101.4):
        now[0] = moment
        shown.at(int(moment * 10))
        said.append(capsys.readouterr().err)
    assert said == ["", "", "\rname: 1,010 of 5,000 octets\x1b[K", "", "\rname: 1,013 of 5,000 octets\x1b[K", ""]


def test_of_a_file_it_says_of_how_many(tmp_path):
    sys.path.insert(0, f"{TOP}/python")
    path = write(tmp_path / "file", LISTING * 10)
    script = "import sys, time; from bufr.inputs import Listed\nlisted = Listed('name', sys.argv[1])\nfor line in listed: " \
        "listed.progress.next and time.sleep(0.02)\n"
    ours, theirs = pty.openpty()
    subprocess.run([sys.executable, "-c", "import bufr.inputs; bufr.inputs.HEAD = 1; bufr.progress = None\n" + script, path],
                   stderr=theirs, env={**os.environ, "PYTHONPATH": f"{TOP}/python"}, check=True)
    os.close(theirs)
    found = os.read(ours, 4096).decode()
    os.close(ours)
    assert re.match(rf"\rname: \d+ of {len(LISTING) * 10} octets\x1b\[K", found) or \
        re.match(rf"\rname: [\d,]+ of {len(LISTING) * 10:,} octets\x1b\[K", found)


# Slurm, as far as bufr-collect-slurm sees it: each job has a number; the last one is waited for, while two of its three steps end.
SBATCH = """#!/bin/sh
echo 7
case "$*" in *--wait*)
    : > OUT.work/lines/0.0; : > OUT.work/lines/0.1
    while ! test -e OUT.seen; do sleep 0.05; done
    : > OUT.log; rm -r OUT.work ;;
esac
"""


def test_slurm_says_how_many_steps_are_done(folder):
    os.mkdir(f"{folder}/bin")
    os.chmod(write(f"{folder}/bin/sbatch", SBATCH.replace("OUT", f"{folder}/out")), 0o755)
    streams = [write(f"{folder}/{number}", message(46)) for number in range(2)]
    words = [sys.executable, f"{TOP}/scripts/bufr-collect-slurm", "--wait", "-o", f"{folder}/out", *streams]
    for quiet in ([], ["--quiet"]):
        ours, theirs = pty.openpty()
        path = f"{folder}/bin:{os.environ['PATH']}"
        with subprocess.Popen([*words, *quiet], stdout=subprocess.PIPE, stderr=theirs, env={**os.environ, "PATH": path}) as process:
            os.close(theirs)
            found = ""
            while not quiet and "2 of 3 steps\x1b[K" not in found:
                found += os.read(ours, 4096).decode()
            write(f"{folder}/out.seen", "")
            found += read_all(ours)
            assert process.stdout.read() == b"job 7: 2 adds\njob 7: 1 merges\n"
        assert process.returncode == 0 and text(f"{folder}/out.log") == ""
        assert re.fullmatch("" if quiet else r"(\rbufr-collect-slurm: [0-2] of 3 steps\x1b\[K)+\r\x1b\[K", found), found
        os.remove(f"{folder}/out.seen")


def test_of_several_inputs_it_counts_those_before(folder, monkeypatch, capsys):
    """Three regular files of 300 octets, and one of them is passed over; a pipe counts as far as it was read."""
    sys.path.insert(0, f"{TOP}/python")
    from bufr import progress
    monkeypatch.setattr(progress, "FIRST", 0)
    monkeypatch.setattr(progress, "EACH", 0)
    monkeypatch.setattr(progress.os, "isatty", lambda file: True)
    paths = [write(f"{folder}/{number}", "x" * 300) for number in range(3)]
    told = progress.InputsProgress("name", paths)
    told.reached(0, 120)
    told.reached(2, 20)
    told.end()
    assert capsys.readouterr().err == "\rname: 120 of 900 octets\x1b[K\rname: 620 of 900 octets\x1b[K\r\x1b[K"
    told = progress.InputsProgress("name", ["-", paths[0]])
    told.reached(0, 1200)
    told.reached(1, 20)
    assert capsys.readouterr().err == "\rname: 1,200 octets\x1b[K\rname: 1,220 octets\x1b[K"
