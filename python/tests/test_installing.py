"""The package, as pip installs it and as a checkout has it."""
import os
import re
import shutil
import subprocess
import sys

import pytest

from conftest import TOP, command, message, read, run, text, write

COMMANDS = ("annotate", "by-version", "collect-slurm", "from-csv", "from-json", "geojson", "lint", "map", "report",
            "skeleton", "summary", "to-json")


@pytest.fixture(scope="module")
def there(tmp_path_factory):
    """The folder that pip installed the package into, from a checkout that is gone since. Its programs are those of the tests."""
    folder = str(tmp_path_factory.mktemp("pip"))
    checkout = f"{folder}/a checkout"
    os.mkdir(checkout)
    for name in ("python", "tables"):
        shutil.copytree(f"{TOP}/{name}", f"{checkout}/{name}", ignore=shutil.ignore_patterns("__pycache__", "build", "*.egg-info"))
    for name in ("bufr", "bufr-select", "LICENSE", "NOTICE"):
        shutil.copy(f"{TOP}/{name}", checkout, follow_symlinks=False)
    os.makedirs(f"{checkout}/dist/x86_64-linux")
    for name, variable in (("bufr", "BUFR"), ("bufr-ls", "BUFR_LS"), ("bufr-select", "BUFR_SELECT")):
        if name != "bufr-select" or variable in os.environ:
            shutil.copy(os.environ[variable], f"{checkout}/dist/x86_64-linux/{name}")
    done = subprocess.run([sys.executable, "-m", "pip", "install", "--no-build-isolation", "--no-index", "--no-deps", "--no-compile",
                           "--disable-pip-version-check", "--target", f"{folder}/site", f"{checkout}/python"],
                          capture_output=True, text=True)
    assert done.returncode == 0, done.stdout + done.stderr
    shutil.rmtree(checkout)
    return f"{folder}/site"


def alone(there, *words, **how):
    """A command that pip installed, which finds its programs by itself, and Python by the PATH."""
    variables = {key: value for key, value in os.environ.items() if key not in ("BUFR", "BUFR_LS", "BUFR_SELECT")}
    done = subprocess.run([f"{there}/bin/{words[0]}", *words[1:]], capture_output=True, timeout=900, **how,
                          env={**variables, "PYTHONPATH": there})
    return done.returncode, done.stdout.decode("latin-1"), done.stderr.decode("latin-1")


def test_the_versions_agree():
    import bufr
    program = subprocess.run([os.environ["BUFR"], "--version"], capture_output=True, text=True).stdout
    assert program == f"bufr {bufr.__version__}\n"
    assert re.search(r'^version = "(.*)"$', text(f"{TOP}/python/pyproject.toml"), re.M)[1] == bufr.__version__


def test_all_files_are_there(there):
    names = {os.path.relpath(os.path.join(at, name), there) for at, _, files in os.walk(there) for name in files}
    assert {"bufr/__init__.py", "bufr/py.typed", "bufr/files/bufr", "bufr/files/bufr-select",
            "bufr/files/dist/x86_64-linux/bufr", "bufr/files/LICENSE",
            "bufr/files/dist/x86_64-linux/bufr-ls", "bufr/files/tables/table_b_13.csv", "bufr/files/NOTICE"} <= names
    for module in os.listdir(f"{TOP}/python/bufr"):
        assert module == "__pycache__" or f"bufr/{module}" in names
    tag = text(f"{there}/bufr-0.1.0.dist-info/WHEEL")
    assert re.search(r"^Tag: py3-none-linux_x86_64$", tag, re.M) and "Root-Is-Purelib: false" in tag
    assert "Requires-Dist: pandas ; extra == 'pandas'" in text(f"{there}/bufr-0.1.0.dist-info/METADATA")


def test_the_program_runs_under_tables_of_each_message(there, folder):
    sequences = f"{TOP}/examples/sequences.bufr"
    assert alone(there, "bufr", "show", sequences, cwd=folder) == (0, text(f"{TOP}/examples/sequences.txt"), "")
    mixed = message(13) + b"noise" + message(46) + message(18, edition=3)
    stream = write(f"{folder}/stream", mixed)
    wanted = "0 49 ok 1 0\n54 49 ok 1 0\n103 44 ok 1 0\nframes 3 refused 0 skipped 5\n"
    assert alone(there, "bufr", "check", stream) == (0, wanted, "")
    assert alone(there, "bufr", "check", "/dev/stdin", input=mixed) == (0, wanted, "")
    assert alone(there, "bufr-ls", "-c", "place,master_version", stream)[1] == "place,master_version\n0,13\n54,46\n103,18\n"
    assert alone(there, "bufr", "--version")[1].startswith("bufr ")
    assert alone(there, "bufr-select", "-c", "message,master_version,012101", stream) \
        == (0, "message,master_version,012101\n1,13,273.15\n2,46,273.15\n3,18,273.15\n", "")
    assert alone(there, "bufr", "show", f"{TOP}/examples/refused.bufr") == (1, "# refused 0 M2 Edition 5\n", "")


def test_its_commands(there, folder):
    for name in COMMANDS:
        status, out, error = alone(there, f"bufr-{name}", "--help")
        assert (status, error) == (0, "") and out.startswith("usage: ") and name in out
    status, out, error = alone(there, "bufr-annotate", f"{TOP}/examples/sequences.txt", cwd=folder)
    assert (status, error) == (0, "") and out.endswith("# TEMPERATURE/AIR TEMPERATURE [K]\n012101 273.15\nend\n")
    stream = write(f"{folder}/stream", message(13) + message(46))
    assert alone(there, "bufr-by-version", "--run", "bufr check", stream)[1] \
        == "0 49 ok 1 0\n49 49 ok 1 0\nframes 2 refused 0 skipped 0\n"
    variables = {**os.environ, "PYTHONPATH": there}
    done = subprocess.run([sys.executable, "-m", "bufr", "skeleton", "012101"], capture_output=True, text=True, env=variables,
                          cwd=folder)
    assert done.returncode == 0 and done.stdout.endswith("subset\n012101 missing\nend\n")


def test_the_runner_of_a_checkout(folder):
    """A link leads to the command of its name, under any name before a dash; words that name none are told."""
    os.symlink(f"{TOP}/python/bufr/__main__.py", f"{folder}/bufr-skeleton")
    assert run(f"{folder}/bufr-skeleton", "012101", folder=folder)[1].endswith("\n012101 missing\nend\n")
    for words in ([], ["nothing"], ["--help"]):
        status, out, error = run(sys.executable, f"{TOP}/python/bufr", *words)
        assert (status, out) == (1, "") and error.startswith("usage: python3 -m bufr COMMAND")
    assert command("annotate", given=b"") == (0, "", "")
    write(f"{folder}/re.py", "raise SystemExit('the wrong module')")
    assert run(sys.executable, "-m", "bufr", "annotate", given=b"", folder=folder, PYTHONPATH=f"{TOP}/python",
               PYTHONSAFEPATH="1")[:2] == (0, "") or sys.version_info < (3, 11)


def test_a_checkout_keeps_what_python_compiles(folder):
    """As far as it may: a script does, and not the package where it is installed, whose files a list names."""
    for name in ("python", "scripts", "tables"):
        shutil.copytree(f"{TOP}/{name}", f"{folder}/{name}", ignore=shutil.ignore_patterns("__pycache__"))
    variables = {key: value for key, value in os.environ.items() if key != "PYTHONDONTWRITEBYTECODE"}
    kept = f"{folder}/python/bufr/__pycache__"
    for words, more, is_kept in (([f"{folder}/scripts/bufr-skeleton"], {"PYTHONDONTWRITEBYTECODE": "1"}, False),
                                 ([f"{folder}/python/bufr/__main__.py", "skeleton"], {}, False), ([f"{folder}/scripts/bufr-skeleton"], {}, True)):
        done = subprocess.run([sys.executable, *words, "012101"], capture_output=True, text=True, env={**variables, **more})
        assert (done.returncode, done.stderr) == (0, "") and done.stdout.endswith("\n012101 missing\nend\n")
        assert os.path.exists(kept) == is_kept


def test_the_package_imports_nothing_of_weight():
    """Neither the package nor by-version loads what takes long: their start counts for each message of a pipe."""
    heavy = {"argparse", "csv", "json", "subprocess", "tempfile", "pandas", "typing", "threading", "shutil", "logging", "datetime"}
    for words in (["import bufr"], ["import bufr.by_version"]):
        script = f"import sys; sys.path.insert(0, {TOP + '/python'!r}); {words[0]}; print(*sys.modules)"
        done = subprocess.run([sys.executable, "-IS", "-c", script], capture_output=True, text=True)
        assert done.returncode == 0, done.stderr
        assert not heavy & set(done.stdout.split())


def test_a_fresh_import_leaves_the_process_as_it_was():
    script = f"import sys; sys.path.insert(0, {TOP + '/python'!r}); before = (list(sys.path), sys.dont_write_bytecode); " \
        "import bufr, bufr.by_version, bufr.annotate; assert before == (sys.path, sys.dont_write_bytecode)"
    variables = {key: value for key, value in os.environ.items() if key != "PYTHONDONTWRITEBYTECODE"}
    done = subprocess.run([sys.executable, "-I", "-B", "-c", script], capture_output=True, text=True, env=variables)
    assert (done.returncode, done.stderr) == (0, "")
    assert read(f"{TOP}/python/bufr/py.typed") == b""
