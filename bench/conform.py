"""Runs the suite's cases against any program with the same command line.

    python3 bench/conform.py PROGRAM [WORD..] [--data DIR] [--only PREFIX]

PROGRAM and the words behind it are a command, for instance a built `ckcore`, that takes the words of a case behind them. Each case is run in a
folder of its own that has the files which it holds. The cases that differ are printed, and in the end how many did. Left out are cases that no
other program can be given, which are those that want failing calls or short writes, and those whose file is broken. Python 3.11 or later.
"""

import os
import subprocess
import sys
import tempfile
import tomllib

HERE = os.path.dirname(os.path.abspath(__file__))
DATA = os.path.join(HERE, "..", "crates", "conformance", "data")
FIELDS = {"shows", "output", "settings", "script", "words", "status", "takes", "failing_fetches", "failing_writes", "files"}
LEFT_OUT = ("takes", "failing_fetches", "failing_writes")


def entries_of(data):
    """The index in order: each case's name, and what the suite is to say of it, or None where it is to agree."""
    with open(os.path.join(data, "index"), encoding="utf-8") as file:
        lines = [line.strip() for line in file]
    for line in lines:
        if line.startswith("! "):
            name, _, wanted = line[2:].partition(": ")
            yield name, wanted
        elif line and not line.startswith("#"):
            yield line, None


def read_case(data, name):
    with open(os.path.join(data, "cases", name + ".toml"), "rb") as file:
        case = tomllib.load(file)
    unknown = set(case) - FIELDS
    if unknown:
        sys.exit("%s: unknown field %s" % (name, ", ".join(sorted(unknown))))
    return case


def bytes_of(piece):
    """What a piece of a file stands for."""
    one = bytes([piece["byte"]]) if "byte" in piece else piece["text"].encode("utf-8")
    return one * piece.get("times", 1)


def held_files(data, case):
    """The files that a case holds, by their names; of two with one name the first is meant."""
    held = {}
    if "settings" in case:
        with open(os.path.join(data, "settings", case["settings"] + ".json"), "rb") as file:
            held["settings"] = file.read()
    if "script" in case:
        held["script"] = case["script"].encode("utf-8")
    for file in case.get("files", []):
        held.setdefault(file["name"], b"".join(bytes_of(piece) for piece in file["pieces"]))
    return held


def run(command, case, held):
    """The status and the output of the command on a case's words."""
    words = case.get("words", ["ckcore", "run", "settings", "script"])
    with tempfile.TemporaryDirectory() as folder:
        for name, content in held.items():
            path = os.path.join(folder, name)
            os.makedirs(os.path.dirname(path), exist_ok=True)
            with open(path, "wb") as file:
                file.write(content)
        done = subprocess.run(command + words[1:], cwd=folder, stdout=subprocess.PIPE, check=False)
    return done.returncode, done.stdout


def difference(case, status, output):
    """The first difference in words, or None."""
    if status != case.get("status", 0):
        return "status wanted %d, got %d" % (case.get("status", 0), status)
    wanted, got = case["output"].split("\n"), output.decode("utf-8", "replace").split("\n")
    for number in range(max(len(wanted), len(got))):
        one = wanted[number] if number < len(wanted) else ""
        other = got[number] if number < len(got) else ""
        if one != other:
            return 'line %d: wanted "%s", got "%s"' % (number + 1, one, other)
    return None if len(wanted) == len(got) else "another number of lines"


def option(words, name, default):
    """Takes an option with its value out of the words."""
    if name not in words:
        return default
    at = words.index(name)
    value = words[at + 1]
    del words[at : at + 2]
    return value


def main(words):
    data = option(words, "--data", DATA)
    only = option(words, "--only", "")
    if not words:
        sys.exit(__doc__.strip())
    command = [os.path.abspath(words[0]) if os.path.exists(words[0]) else words[0]] + words[1:]
    ran = differ = left_out = 0
    for name, wanted in entries_of(data):
        if not name.startswith(only):
            continue
        if wanted is not None and not wanted.startswith(("line ", "status ")):
            left_out += 1
            continue
        case = read_case(data, name)
        if any(field in case for field in LEFT_OUT):
            left_out += 1
            continue
        ran += 1
        found = difference(case, *run(command, case, held_files(data, case)))
        if found != wanted:
            differ += 1
            print("%s: %s" % (name, found or "agrees, but is to differ: " + wanted))
    print("cases %d, differ %d, left out %d" % (ran, differ, left_out))
    return 1 if differ else 0


if __name__ == "__main__":
    sys.exit(main(sys.argv[1:]))
