"""What the tests of the package share. tests/python names the programs; `python3 -m pytest python/tests` takes those of dist/."""
import contextlib
import io
import os
import subprocess
import sys

import pytest

TOP = os.path.dirname(os.path.dirname(os.path.dirname(os.path.abspath(__file__))))
sys.path.insert(0, f"{TOP}/python")
sys.dont_write_bytecode = True
os.environ["PYTHONDONTWRITEBYTECODE"] = "1"
os.environ.setdefault("BUFR", f"{TOP}/dist/x86_64-linux/bufr")
os.environ.setdefault("BUFR_LS", f"{TOP}/dist/x86_64-linux/bufr-ls")
if os.path.exists(f"{TOP}/dist/x86_64-linux/bufr-select"):
    os.environ.setdefault("BUFR_SELECT", f"{TOP}/dist/x86_64-linux/bufr-select")
for name in ("BUFR_TABLES", "BUFR_VERBOSE"):
    os.environ.pop(name, None)


def run(*words, given=None, folder=None, **variables):
    """Status, output and standard error of a command, each octet a character."""
    done = subprocess.run([str(word) for word in words], input=given, capture_output=True, cwd=folder, timeout=900,
                          env={**os.environ, **variables})
    return done.returncode, done.stdout.decode("latin-1"), done.stderr.decode("latin-1")


def command(name, *words, **how):
    """A command of the package, from the checkout."""
    return run(sys.executable, f"{TOP}/scripts/bufr-{name}", *words, **how)


def inside(name, *words):
    """Status, output and standard error of a command that runs in this process, which is faster. It has no standard input."""
    module = __import__("bufr." + name.replace("-", "_"), fromlist=["command"])
    out, error = io.TextIOWrapper(io.BytesIO(), "utf-8"), io.StringIO()
    before, sys.argv = sys.argv, [f"bufr-{name}", *map(str, words)]
    try:
        with contextlib.redirect_stdout(out), contextlib.redirect_stderr(error), pytest.raises(SystemExit) as ended:
            module.command()
    finally:
        sys.argv = before
    out.flush()
    return ended.value.code, out.buffer.getvalue().decode(), error.getvalue()


def read(path):
    with open(path, "rb") as file:
        return file.read()


def text(path):
    return read(path).decode("latin-1")


def write(path, octets):
    with open(path, "wb") as file:
        file.write(octets if isinstance(octets, bytes) else octets.encode("latin-1"))
    return str(path)


def named(version):
    """The options that name the tables of a version."""
    return ["-b", f"{TOP}/tables/table_b_{version}.csv", "-d", f"{TOP}/tables/table_d_{version}.csv"]


def message(version, edition=4, kelvin="6AB3", descriptor="0C65", subsets=1):
    """A message of one temperature, 273.15 K, of some master table version: 49 octets, or 44 in edition 3."""
    if edition == 3:
        section1 = f"000011 00 00 62 00 00 00 00 {version:02X} 00 18 01 0F 0C 00"
    else:
        section1 = f"000016 00 0062 0000 00 00 00 02 00 {version:02X} 00 07E8 01 0F 0C 00 00"
    rest = bytes.fromhex(f"{edition:02X} {section1} 000009 00 0001 80 {descriptor} 000006 00 {kelvin}") + b"7777"
    return b"BUFR" + (7 + len(rest)).to_bytes(3, "big") + rest


def pytest_unconfigure(config):
    """Prints the line that tests/all wants of its scripts."""
    told = config.pluginmanager.get_plugin("terminalreporter")
    if told is not None and not config.option.collectonly:
        count = {kind: len(told.stats.get(kind, [])) for kind in ("passed", "failed", "error")}
        print(f"python: {sum(count.values())} cases, {count['failed'] + count['error']} wrong")


@pytest.fixture
def folder(tmp_path):
    return str(tmp_path)
