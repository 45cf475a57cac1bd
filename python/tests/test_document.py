"""What docs/PYTHON.md shows: each block of Python prints the block after it."""
import datetime
import json
import os
import re
import subprocess
import sys

import pytest

import bufr
from conftest import TOP, inside, read, write

with open(f"{TOP}/docs/PYTHON.md", encoding="utf-8") as file:
    BLOCKS = re.findall(r"```python\n(.*?)```\n\n```\n(.*?)```\n", file.read(), re.S)


@pytest.mark.parametrize("script, output", BLOCKS, ids=range(len(BLOCKS)))
def test_a_block(script, output, folder):
    os.symlink(f"{TOP}/examples", f"{folder}/examples")
    done = subprocess.run([sys.executable, "-c", script], cwd=folder, capture_output=True, text=True,
                          env={**os.environ, "PYTHONPATH": f"{TOP}/python"})
    assert (done.returncode, done.stdout, done.stderr) == (0, output, "")


def test_a_mapping_that_is_filled_in(folder):
    """The lines of JSON, in a new mapping, read a CSV file with their header."""
    with open(f"{TOP}/docs/PYTHON.md", encoding="utf-8") as file:
        header, block = re.search(r"header `(.*?)`.*?```json\n(.*?)```\n", file.read(), re.S).groups()
    cells = write(f"{folder}/a.csv", f"{header}\n15.01.2024;12:00;6610;-4,1\n".encode())
    name, words = f"{folder}/m.json", json.loads(f"{{{block}}}")
    assert inside("from-csv", "--new", name, "--centre", "78", "--template", "307080", cells)[0] == 0
    mapping = json.loads(read(name))
    # what is filled in is there, and empty
    assert set(words) <= set(mapping) and set(words["fields"]) <= set(mapping["fields"])
    assert (mapping["station"], mapping["decimal"], mapping["time"]) == (None, None, {"column": None, "format": None})
    mapping["fields"].update(words.pop("fields"))
    assert inside("from-csv", "-o", f"{folder}/a.bufr", write(name, json.dumps({**mapping, **words})), cells) == (0, "", "")
    rows = list(bufr.rows(f"{folder}/a.bufr", ["001001", "001002", "012101"], time=True))
    assert rows == [(datetime.datetime(2024, 1, 15, 12), 6, 610, 269.05)]


def test_all_blocks_are_tried():
    with open(f"{TOP}/docs/PYTHON.md", encoding="utf-8") as file:
        assert len(BLOCKS) == file.read().count("```python\n") >= 6


def test_the_calls_have_the_words_that_are_listed():
    import inspect
    with open(f"{TOP}/docs/PYTHON.md", encoding="utf-8") as file:
        rows = re.findall(r"^\| `(\w+)\((.*)\)` \|", file.read(), re.M)
    assert [name for name, _ in rows] == ["read", "rows", "messages", "encode", "check", "add", "merge"]
    for name, words in rows:
        parameters = inspect.signature(getattr(bufr, name)).parameters.values()
        said = []
        for each in parameters:
            if each.kind is each.KEYWORD_ONLY and "*" not in said:
                said.append("*")
            said.append(each.name if each.default is each.empty else f"{each.name}={each.default}")
        assert ", ".join(said) == words
