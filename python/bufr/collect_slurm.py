"""Makes one archive of many streams on the machines of a Slurm cluster: an array job adds the streams, each
by itself, and a tree of merges waits for it, each level for the one below. The archive is the same, octet for
octet, as that of one `bufr add` over all streams.

    collect-slurm -o OUT STREAM..

If no tables are named, each message is read under those of its version: `{}` in OUT stands for the version, and there is an
archive for each. Without `{}` all messages have to take the same tables.

The folder OUT.work (or that of --folder) has to lie where all machines see it. A step that fails is tried
again, and a job that loses its machine is queued again; what a step made is put in its place
whole, so nothing is done twice in part. A step that is killed by kill -9, by scancel or by a time limit is not
queued again. If a step fails for good, the steps after it are cancelled and OUT.work stays: the same call goes
on from there, and reads again each stream that has another size or time than before. At the end OUT has the
archive, OUT.log the names and counts of the streams of each step that added, and OUT.work is gone.

With --wait the status is 1 if a message was refused."""
import glob
import os
import re
import shlex
import subprocess

from . import processes
from .commands import entry
from .errors import Fault
from .parsers import add_quiet, parser_of
from .progress import Progress
from .tables import chosen_paths
from .versions import HERE, TOP

# The most steps of an array job, if --steps names no other: fewer than a Slurm allows that is not told otherwise.
MOST_STEPS = 1000
PROGRAMS = [os.path.join(HERE, "files", "bufr"), os.path.join(TOP, "bufr")]

STEP = """#!/bin/sh
# One step: `step LEVEL INDEX`. Level 0 adds streams, the others merge the archives of the level below.
set -u
cd {work} || exit 2
level=$1
index=$2
part=parts/$level.$index
last={last}
if [ ! -f "lines/$level.$index" ]; then
    new=new/$level.$index.$$
    if [ "$level" -eq 0 ]; then
        command=add
        count={streams_a_step}
        sed -n "$((index * count + 1)),$((index * count + count))p" streams > "$new.list"
    else
        command=merge
        below=$((level - 1))
        number=$((index * {fan}))
        end=$((number + {fan}))
        # how many steps the level below has; each has left its archive, or the merge fails
        set -- {steps}
        shift "$below"
        [ "$end" -le "$1" ] || end=$1
        # with archives for each version, a step may have left none: an empty one goes with any
        : > new/none
        echo new/none > "$new.list"
        while [ "$number" -lt "$end" ]; do
            [ -f "lines/$below.$number" ] || exit 2
            for file in "parts/$below.$number" "parts/$below.$number".*; do
                [ ! -f "$file" ] || echo "$file"
            done
            number=$((number + 1))
        done >> "$new.list"
    fi
    set --
    while IFS= read -r name; do
        set -- "$@" "$name"
    done < "$new.list"
    try=1
    while :; do
        rm -f "$new.out"*
        {program} "$command" {tables} -o "$new.out{mark}" -- "$@" > "$new.line"
        status=$?
        # 1 is a message that was refused: the others are in the archive
        [ "$status" -le 1 ] && break
        [ "$try" -ge {tries} ] && exit "$status"
        try=$((try + 1))
        sleep 1
    done
    for file in "$new.out"*; do
        [ ! -f "$file" ] || mv "$file" "$part${{file#"$new.out"}}" || exit 2
    done
    mv "$new.line" "lines/$level.$index" || exit 2
    rm -f "$new.list"
fi
if [ "$level" -eq "$last" ]; then
    number=0
    while [ -f "lines/0.$number" ]; do
        # the names of its streams, and what was counted
        sed -n "$((number * {streams_a_step} + 1)),$((number * {streams_a_step} + {streams_a_step}))s/^/# /p" streams
        cat "lines/0.$number"
        number=$((number + 1))
    done > {out}.log.new
    for file in "$part" "$part".*; do
        [ -f "$file" ] || continue
        version=${{file#"$part"}}
        out=$(printf '%s\n' {out} | sed "s/{mark_of_version}/${{version#.}}/g") || exit 2
        cp "$file" "$out.new" && sync "$out.new" && mv "$out.new" "$out" && sync "${{out%/*}}" || exit 2
    done
    mv {out}.log.new {out}.log || exit 2
    # moved away at once, so that this step, killed here and queued again, does not merge what is left
    rm -rf {work}.gone
    cd / && mv {work} {work}.gone && rm -rf {work}.gone
fi
exit 0
"""


def program():
    named = os.environ.get("BUFR")
    if named:
        return os.path.abspath(named)
    for path in PROGRAMS:
        if os.path.isfile(path) and os.access(path, os.X_OK):
            return os.path.abspath(path)
    return "bufr"


def found(name):
    """The whole path of the program `bufr` or `bufr-ls`."""
    path = processes.program(name)
    return os.path.abspath(path) if "/" in path else path


def levels(streams, fan, most):
    """How many streams a step adds, and how many steps each level has: the first adds, the last merges all."""
    streams_a_step = -(-streams // most)
    steps = [-(-streams // streams_a_step)]
    while len(steps) == 1 or steps[-1] > 1:
        steps.append(-(-steps[-1] // fan))
    return streams_a_step, steps


def put(path, text):
    """Writes a file whole: a step that reads it has the old one or the new."""
    with open(f"{path}.new", "w", encoding="utf-8", errors="surrogateescape") as file:
        file.write(text)
    os.replace(f"{path}.new", path)


def of_this_call(work, name, text):
    """Writes what the parts in a folder depend on; where it is there, it has to be the same."""
    path = os.path.join(work, name)
    if os.path.exists(path):
        with open(path, encoding="utf-8", errors="surrogateescape") as file:
            if file.read() != text:
                raise Fault(f"{work} is of another call: take another --folder, or remove it")
    else:
        put(path, text)


def stamp(path):
    """The size and the time of a file, which are others when it has grown."""
    kept = os.stat(path)
    return f"{kept.st_size} {kept.st_mtime_ns}"


def forget_changed(work, streams, streams_a_step, steps, fan):
    """Removes what steps made of streams that have another size or time than at the call before, and what was merged of it."""
    path = os.path.join(work, "stamps")
    stamps = [stamp(name) for name in streams]
    before = stamps
    if os.path.exists(path):
        with open(path, encoding="utf-8") as file:
            before = file.read().splitlines()
    for number in {at // streams_a_step for at, (old, new) in enumerate(zip(before, stamps)) if old != new}:
        for level in range(len(steps)):
            # the line first: without it a step does not count
            for made in [f"{work}/lines/{level}.{number}", f"{work}/parts/{level}.{number}",
                         *glob.glob(f"{glob.escape(work)}/parts/{level}.{number}.*")]:
                if os.path.exists(made):
                    os.remove(made)
            number //= fan
    put(path, "".join(f"{each}\n" for each in stamps))


def refused(log):
    """How many messages were refused, by the lines of a log."""
    with open(log, encoding="utf-8", errors="surrogateescape") as file:
        return sum(int(number) for line in file if not line.startswith("#") for number in re.findall(r"\brefused (\d+)", line))


def done_in(work):
    """How many steps are done."""
    try:
        return len(os.listdir(os.path.join(work, "lines")))
    except OSError:
        return 0


def submit(words, work, progress):
    """Hands a job to Slurm, and answers its number. While that waits, it says how many steps are done."""
    try:
        process = subprocess.Popen(["sbatch", "--parsable", *words], stdout=subprocess.PIPE, text=True)
    except OSError as error:
        raise Fault(f"cannot run sbatch: {error.strerror}") from error
    with process:
        while True:
            try:
                said, _ = process.communicate(timeout=None if progress.next is None else 0.3)
                break
            except subprocess.TimeoutExpired:
                progress.at(done_in(work))
    number = said.strip().split(";")[0]
    # with --wait the status is that of the job
    if not number or (process.returncode and "--wait" not in words):
        raise Fault("Slurm took no job: see the line above")
    return number


def main():
    parser = parser_of("collect-slurm", __doc__)
    parser.add_argument("-o", metavar="OUT", required=True, help="the archive that is written")
    parser.add_argument("--folder", metavar="FOLDER", help="where the steps work (OUT.work)")
    parser.add_argument("--fan", type=int, default=16, metavar="N", help="how many archives a step merges (16)")
    parser.add_argument("--steps", type=int, default=MOST_STEPS, metavar="N",
                        help=f"how many steps add at most, each some of the streams ({MOST_STEPS})")
    parser.add_argument("--tries", type=int, default=3, metavar="N", help="how often a step is tried (3)")
    parser.add_argument("--wait", action="store_true", help="ends when the archive is there, or a step failed")
    add_quiet(parser, "how many steps are done")
    parser.add_argument("--sbatch", default="", metavar="OPTIONS", help="options for sbatch, as '-p short'")
    parser.add_argument("streams", nargs="+", metavar="STREAM", help="the streams, where all machines see them")
    arguments = parser.parse_args()
    if arguments.fan < 2 or arguments.tries < 1 or arguments.steps < 1:
        raise Fault("--fan is at least 2, --steps and --tries at least 1")
    streams = [os.path.abspath(name) for name in arguments.streams]
    for name in streams:
        if "\n" in name or not os.path.isfile(name):
            raise Fault(f"{name!r} is no file")
    out = os.path.abspath(arguments.o)
    work = os.path.abspath(arguments.folder or f"{out}.work")
    streams_a_step, steps = levels(len(streams), arguments.fan, arguments.steps)
    if arguments.b or arguments.d or arguments.tables or os.environ.get("BUFR_TABLES"):
        b_path, d_path = (os.path.abspath(path) for path in chosen_paths(arguments))
        tables, mark = f"-b {shlex.quote(b_path)} -d {shlex.quote(d_path)}", ""
        run = shlex.quote(program())
    else:
        tables, mark = "", ".{}" if "{}" in out else ""
        names = (f"{name.upper().replace('-', '_')}={shlex.quote(found(name))}" for name in ("bufr", "bufr-ls"))
        run = f"env {' '.join(names)} python3 -IS {shlex.quote(os.path.join(HERE, '__main__.py'))} by-version"
    for folder in ("parts", "lines", "log", "new"):
        os.makedirs(os.path.join(work, folder), exist_ok=True)
    of_this_call(work, "call", f"-o {shlex.quote(out)} {tables} --fan {arguments.fan} --steps {arguments.steps}\n")
    of_this_call(work, "streams", "".join(f"{name}\n" for name in streams))
    forget_changed(work, streams, streams_a_step, steps, arguments.fan)
    put(os.path.join(work, "step"), STEP.format(
        work=shlex.quote(work), out=shlex.quote(out), last=len(steps) - 1, fan=arguments.fan,
        steps=" ".join(map(str, steps)), tries=arguments.tries, streams_a_step=streams_a_step,
        program=run, tables=tables, mark=mark, mark_of_version="{}" if mark else "^$"))
    before = None
    for level, count in enumerate(steps):
        words = shlex.split(arguments.sbatch) + ["--requeue", "--kill-on-invalid-dep=yes",
                 f"--array=0-{count - 1}", f"--job-name=bufr-{'merge' if level else 'add'}",
                 f"--output={work.replace('%', '%%')}/log/%x.%A.%a"]
        if before:
            words.append(f"--dependency=afterok:{before}")
        if arguments.wait and level == len(steps) - 1:
            words.append("--wait")
        progress = Progress(parser.prog, sum(steps), arguments.quiet, "steps")
        before = submit(words + [f"--wrap=sh {shlex.quote(work + '/step')} {level} $SLURM_ARRAY_TASK_ID"], work, progress)
        progress.end()
        print(f"job {before}: {count} {'merges' if level else 'adds'}", flush=True)
    if arguments.wait and not (os.path.exists(f"{out}.log") and not os.path.exists(work)):
        raise Fault(f"a step failed: see {work}/log")
    return int(arguments.wait and refused(f"{out}.log") > 0)


command = entry("collect-slurm", main)
