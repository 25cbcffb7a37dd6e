#!/usr/bin/env python3
"""Measures microseconds a line of the program, in documents of growing length, with fixers, and below a growing number of highlights.

Usage: bench/run.py PROGRAM, where PROGRAM is the built program (docs/PERFORMANCE.md says where it lies).
It prints the rows of the tables in docs/PERFORMANCE.md.
"""
import json
import pathlib
import subprocess
import sys
import tempfile
import time

PARAGRAPHS = (100, 1_000, 10_000)
MARKERS = (10, 100, 1_000)
LINES = 50
SHOWS = 10
TEXT = "The quick brown fox jumps over the lazy dog. "
SETTINGS = {
    "version": 1,
    "schema": [
        {"item": "paragraph", "inheritAllFrom": "$block"},
        {"item": "quote", "inheritAllFrom": "$container"},
        {"extend": "$text", "allowAttributes": ["bold"]},
    ],
    "converters": [
        {"kind": "elementToElement", "model": "paragraph", "view": {"name": "p"}},
        {"kind": "elementToElement", "model": "quote", "view": {"name": "blockquote"}},
        {"kind": "attributeToElement", "model": "bold", "view": {"name": "strong"}},
        {"kind": "markerToHighlight", "marker": "comment", "view": {"attributes": {"class": "comment"}}},
    ],
}


# One fixer of each kind of the settings. None of them wants anything of the documents here, so that each walks the document once a line.
FIXERS = [
    "dropAttributes",
    {"fill": "$root", "with": "paragraph"},
    {"joinNeighbours": "quote"},
    {"removeEmpty": "quote"},
    {"require": "quote", "child": "paragraph"},
    "selection",
]


def line_of(value):
    return json.dumps(value, separators=(",", ":"))


def change(*edits):
    return line_of({"do": "change", "edits": edits})


SHOW = line_of({"do": "show"})


def paragraph(index, text):
    """The edits that make a paragraph of a text."""
    yield {"edit": "insertElement", "at": [index], "name": "paragraph"}
    yield {"edit": "insertText", "at": [index, 0], "text": text}


def document(count):
    """One change that makes a document of so many paragraphs."""
    return change(*(edit for index in range(count) for edit in paragraph(index, TEXT)))


def highlighted(count):
    """One change that makes a paragraph of ten sentences, half of it bold, which so many markers cover but for as many characters at its ends."""
    length = 10 * len(TEXT)
    bold = {"edit": "setAttribute", "start": [0, length // 4], "end": [0, 3 * length // 4], "key": "bold", "value": True}
    ends = [(index % 200, length - index % 200) for index in range(count)]
    markers = (
        {"edit": "addMarker", "name": f"comment:{index}", "start": [0, start], "end": [0, end]}
        for index, (start, end) in enumerate(ends)
    )
    return change(*paragraph(0, 10 * TEXT), bold, *markers)


def kinds(middle, line):
    """The edits that are measured, in the middle of a document, each line in another one of 40 paragraphs."""
    place = middle + line % 40
    return {
        "insertText, one character": {"edit": "insertText", "at": [place, 3], "text": "x"},
        "split": {"edit": "split", "at": [place, 0]},
        "merge": {"edit": "merge", "at": [middle]},
        "remove, one character": {"edit": "remove", "start": [place, 3], "end": [place, 4]},
    }


UNKNOWN = {"edit": "insertElement", "at": [0], "name": "table"}


def seconds(program, folder, lines, fixers):
    """The time of a run of a script with these fixers: the best of three."""
    settings, script = folder / "settings", folder / "script"
    settings.write_text(json.dumps({**SETTINGS, "fixers": fixers}))
    script.write_text("".join(line + "\n" for line in lines))
    taken = []
    for _ in range(3):
        start = time.perf_counter()
        process = subprocess.run([program, "run", settings, script], stdout=subprocess.PIPE, check=True)
        taken.append(time.perf_counter() - start)
        if not process.stdout.splitlines()[-1].startswith(b"%d " % len(lines)):
            sys.exit("the script was not answered")
    return min(taken)


def microseconds(program, folder, lines, fixers):
    """The time of a line behind the first one, which makes the document."""
    return (seconds(program, folder, lines, fixers) - seconds(program, folder, lines[:1], fixers)) / (len(lines) - 1) * 1e6


def print_head(first, counts, of):
    print(f"| {first} | " + " | ".join(f"{count:,} {of}" for count in counts) + " |")
    print("|---|" + "---|" * len(counts))


def print_row(program, folder, name, scripts, fixers=()):
    row = [f"{microseconds(program, folder, lines, list(fixers)):.0f}" for lines in scripts]
    print(f"| {name} | " + " | ".join(row) + " |", flush=True)


def print_edits(program, folder):
    print_head("Line", PARAGRAPHS, "paragraphs")
    for kind in kinds(0, 0):
        for suffix, more in (("", []), (", then an edit that is refused", [UNKNOWN])):
            scripts = [
                [document(count)] + [change(kinds(count // 2, line)[kind], *more) for line in range(min(LINES, count // 3))]
                for count in PARAGRAPHS
            ]
            print_row(program, folder, kind + suffix, scripts)
    print_row(program, folder, "show", [[document(count)] + [SHOW] * SHOWS for count in PARAGRAPHS])


def print_fixers(program, folder):
    print_head("Line", PARAGRAPHS, "paragraphs")
    scripts = [
        [document(count)] + [change(kinds(count // 2, line)["insertText, one character"]) for line in range(min(LINES, count // 3))]
        for count in PARAGRAPHS
    ]
    print_row(program, folder, "insertText, one character", scripts)
    print_row(program, folder, "the same, with all six fixers of the settings", scripts, FIXERS)


def print_highlights(program, folder):
    print_head("Line", MARKERS, "markers")
    typed = change({"edit": "insertText", "at": [0, 225], "text": "x"})
    print_row(program, folder, "insertText, one character", [[highlighted(count)] + [typed] * SHOWS for count in MARKERS])
    print_row(program, folder, "show", [[highlighted(count)] + [SHOW] * SHOWS for count in MARKERS])


def main():
    if len(sys.argv) != 2:
        sys.exit(__doc__)
    program = sys.argv[1]
    with tempfile.TemporaryDirectory() as name:
        folder = pathlib.Path(name)
        print_edits(program, folder)
        print()
        print_fixers(program, folder)
        print()
        print_highlights(program, folder)


main()
