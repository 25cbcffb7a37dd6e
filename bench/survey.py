#!/usr/bin/env python3
"""Lists what is hard to read or stands for nothing in the crates.

Usage: bench/survey.py [KIND..], at the top of the repository; without a kind each is listed. The kinds:
  clauses    clauses of public calls over 300 characters
  lines      lines over 160 characters, but for attributes, which the formatter keeps on one line
  functions  functions over 40 lines, or with more than six parameters beside self
  words      words of specs/ without a sentence above them
  twice      statements of lemmas that stand in two files or more
  lemmas     public lemmas, and lemma files, that no other file names
"""
import collections
import pathlib
import re
import sys

MOST_CLAUSE, MOST_LINE, MOST_BODY, MOST_PARAMETERS = 300, 160, 40, 6
CRATES = pathlib.Path("crates")


def files(*suffixes):
    """The files of these kinds, with their texts."""
    for path in sorted(CRATES.rglob("*")):
        if path.suffix in suffixes and "out" not in path.parts:
            yield path, path.read_text(encoding="utf-8")


def line_of(text, offset):
    return text.count("\n", 0, offset) + 1


def balanced(text, start):
    """Where the brace that opens at `start` closes."""
    depth = 0
    for index in range(start, len(text)):
        depth += (text[index] == "{") - (text[index] == "}")
        if depth == 0:
            return index
    return len(text)


def clauses():
    for path, text in files(".rt"):
        for match in re.finditer(r"^\s*(?:ensures|requires)\*?(?: \w+)? (\{)", text, re.M):
            head = text.rfind("fn ", 0, match.start())
            is_public = re.search(r"pub (?:\w+ )*$", text[max(0, head - 40) : head])
            clause = " ".join(text[match.start(1) : balanced(text, match.start(1)) + 1].split())
            if is_public and len(clause) > MOST_CLAUSE:
                yield f"{path}:{line_of(text, match.start())}: {len(clause)} characters"


def lines():
    for path, text in files(".rt", ".antt"):
        for number, line in enumerate(text.split("\n"), 1):
            if len(line) > MOST_LINE and not line.lstrip().startswith(("#[", "#![")):
                yield f"{path}:{number}: {len(line)} characters"


def functions():
    for path, text in files(".rt"):
        for match in re.finditer(r"^ *(?:pub(?:\(crate\))? )?fn (\w+)(?:<[^(]*>)?\(([^)]*)\)", text, re.M):
            parameters = [part for part in match[2].split(",") if ":" in part and "self" not in part.split(":")[0]]
            if len(parameters) > MOST_PARAMETERS:
                yield f"{path}:{line_of(text, match.start())}: {match[1]} has {len(parameters)} parameters"
            body = re.compile(r"^ *\{$", re.M).search(text, match.end())
            if body and "\nfn " not in text[match.end() : body.start()]:
                length = text.count("\n", body.start(), balanced(text, text.index("{", body.start()))) - 1
                if length > MOST_BODY:
                    yield f"{path}:{line_of(text, match.start())}: {match[1]} has {length} lines"


def words():
    for path, text in files(".antt"):
        if "specs" not in path.parts:
            continue
        rows = text.split("\n")
        for number, row in enumerate(rows):
            match = re.match(r" *(?:abbrev |unfoldable )?pub (?:abbrev |unfoldable |record |data )?([^ :]+)", row)
            if not match or " mod " in row or re.match(r" +pub \S+ :", row) and not row.startswith("  pub"):
                continue
            if row.startswith("  pub") and not any(r.startswith(("abbrev mutual", "mutual", "module")) for r in rows[:number]):
                continue
            above = rows[number - 1].strip() if number else ""
            if not above.startswith("--"):
                yield f"{path}:{number + 1}: {match[1]}"


def statements():
    """The lemmas of proofs/, with their statements in one line."""
    for path, text in files(".antt"):
        if "proofs" in path.parts:
            for match in re.finditer(r"^( *)(pub )?([^\s:=]+) : (.+(?:\n\1 +\S.*)*)", text, re.M):
                yield path, line_of(text, match.start()), bool(match[2]), match[3], " ".join(match[4].split())


def twice():
    found = collections.defaultdict(list)
    for path, number, _, name, statement in statements():
        if len(statement) > 40 and "goal." not in statement:
            found[statement].append(f"{path}:{number} {name}")
    for places in found.values():
        if len({place.split(":")[0] for place in places}) > 1:
            yield "; ".join(places)


def lemmas():
    texts = {path: text for path, text in files(".antt", ".rt")}
    names = collections.Counter(word for text in texts.values() for word in set(re.findall(r"[^\s(){}\[\],;.:]+", text)))
    for path, number, is_public, name, statement in statements():
        if is_public and "goal." not in statement and names[name] < 2 and texts[path].count(name) < 4:
            yield f"{path}:{number}: {name}"
    for path, text in texts.items():
        if path.parent.name == "proofs" and path.stem not in ("Lib", "Invariants"):
            module = f"Rattle.{path.parts[1]}.proofs.{path.stem}."
            if not any(module in other or f"proofs::{path.stem}::" in other for at, other in texts.items() if at != path):
                yield f"{path}: no file imports it"


KINDS = {"clauses": clauses, "lines": lines, "functions": functions, "words": words, "twice": twice, "lemmas": lemmas}


def main():
    for kind in sys.argv[1:] or KINDS:
        found = list(KINDS[kind]())
        print(f"{kind}: {len(found)}")
        for row in found:
            print(f"  {row}")


main()
