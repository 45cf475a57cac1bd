"""The types of the package, as a type checker reads them."""
import re
import shutil

from conftest import TOP, run, write

RIGHT = '''
import datetime
import bufr

for row in bufr.rows(["a.bufr", "b.bufr"], {"kelvin": "012101"}, each="007004", tables=46):
    reveal_type(row)
for message in bufr.messages("a.bufr", tables=["b.csv", "d.csv"]):
    reveal_type(message)
reveal_type(bufr.encode([{"edition": 4}], compressed=True))
for line in bufr.check("a.bufr"):
    reveal_type(line)
    reveal_type(line.place)
    reveal_type(line.slack)
reveal_type(bufr.Refused("a.bufr", 18, "V2 DataEnds 1 2").place)
'''
# What a type checker has to refuse: each line by itself.
WRONG = ["bufr.encode('message')", "bufr.check(12)", "bufr.check('a.bufr', tables=1.5)", "bufr.rows('a.bufr', 12101)",
         "bufr.rows('a.bufr', ['012101'], each=7004)", "bufr.add('out.bufr', 7)", "bufr.reed('a.bufr')()",
         "bufr.encode([], compressed=1.0)", "bufr.check('a.bufr')[0].slack + 1"]


def mypy(*words):
    program = shutil.which("mypy")
    assert program, "apt-get install mypy"
    return run(program, "--config-file", f"{TOP}/python/pyproject.toml", "--cache-dir", "/dev/null", *words, MYPYPATH=f"{TOP}/python")


def test_the_package_is_typed():
    status, out, error = mypy(f"{TOP}/python/bufr")
    assert status == 0 and re.fullmatch(r"Success: no issues found in \d+ source files\n", out) and error == "", out + error


def test_calls_have_their_types(folder):
    status, out, _ = mypy(write(f"{folder}/right.py", RIGHT))
    assert status == 0, out
    assert re.findall(r'Revealed type is "(.*)"', out) == [
        "builtins.tuple[Any, ...]", "builtins.dict[builtins.str, Any]", "builtins.bytes",
        "Tuple[builtins.int, builtins.int, Union[builtins.int, None], Union[builtins.int, None], Union[builtins.str, None], "
        "fallback=bufr.reading.Checked]", "builtins.int", "Union[builtins.int, None]", "builtins.int"]


def test_wrong_calls_are_refused(folder):
    status, out, _ = mypy(write(f"{folder}/wrong.py", "import bufr\n" + "\n".join(WRONG) + "\n"))
    assert status == 1
    assert sorted({int(line) for line in re.findall(r"wrong\.py:(\d+): error", out)}) == list(range(2, 2 + len(WRONG))), out
