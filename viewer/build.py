#!/usr/bin/env python3
"""Writes the viewer as constants of crates/hp_svg, from the files beside this script.

    build.py                    writes crates/hp_svg/src/viewer/*.rt
    build.py --check            exit status 1 if those are not what the viewer's files give
    build.py --page TRACE       prints the page of a trace (what `hotplug_lab trace --json` prints)

A page is the constants in their order, with the lines of a trace after `BODY`. Its content security
policy names the style and the script by their sums, so a browser runs no other script and asks no
network, whatever a trace holds.
"""
import base64
import hashlib
import re
import sys
from pathlib import Path

HERE = Path(__file__).resolve().parent
TARGET = HERE.parent / "crates/hp_svg/src/viewer"
STYLE, SCRIPTS = "viewer.css", ["trace.js", "words.js", "machine.js", "panels.js"]
MARKS = re.compile("@(STYLE|TRACE|SCRIPT)@")
WIDTH = 100


def read(file):
    return (HERE / file).read_text(encoding="utf-8")


def html_parts():
    """The page's frame: up to its style, to its trace, to its script, and after it."""
    html = read("viewer.html")
    for name, files in {"STYLE": [STYLE], "SCRIPT": SCRIPTS}.items():
        text = "".join(map(read, files))
        assert not re.search("</(script|style)|<!--|@[A-Z_]+@", text), f"a mark in {files}"
        digest = base64.b64encode(hashlib.sha256(text.encode()).digest()).decode()
        html = html.replace(f"@{name}_HASH@", "sha256-" + digest)
    assert MARKS.findall(html) == ["STYLE", "TRACE", "SCRIPT"], "the marks of viewer.html"
    return MARKS.split(html)[::2]


def parts():
    """The texts of a page in their order, by the module and the name of their constant."""
    head, body, middle, end = html_parts()
    scripts = [(Path(file).stem, Path(file).stem.upper(), read(file)) for file in SCRIPTS]
    return [("html", "HEAD", head), ("style", "STYLE", read(STYLE)), ("html", "BODY", body),
            ("html", "MIDDLE", middle), *scripts, ("html", "END", end)]


def escaped(text):
    """The characters of a text as they are written between the quotation marks of a literal."""
    short = {"\\": "\\\\", '"': '\\"', "\n": "\\n"}
    return [short.get(c) or (c if " " <= c <= "~" else f"\\u{{{ord(c):x}}}") for c in text]


def literal(text):
    """A literal over many lines, each of which ends where one of the text does, or is full."""
    lines, line = [], ""
    for piece in escaped(text):
        if len(line + piece) > WIDTH - len("\\n\\"):
            lines.append(line)
            line = ""
        line += "\\x20" if piece == " " and not line else piece  # a space there would be skipped
        if piece == "\\n":
            lines.append(line)
            line = ""
    return '"\\\n' + "\\\n".join(lines + [line]) + '"'


def sources():
    """The text of each module of constants, by its name."""
    modules = {}
    for module, name, text in parts():
        about = f"//! Written by viewer/build.py from viewer/: do not edit.\n"
        modules.setdefault(module, about)
        modules[module] += f"\n/// A part of the page.\npub(crate) const {name}: &str = {literal(text)};\n"
    return modules


def page(lines):
    """The page of a trace, from its lines of JSON."""
    texts = [text for _, _, text in parts()]
    return "".join([*texts[:3], lines, *texts[3:]])


def stale():
    """The files that are not what the viewer's files give."""
    given = {f"{name}.rt": text for name, text in sources().items()}
    there = {path.name: path.read_text(encoding="utf-8") for path in TARGET.glob("*.rt")}
    return sorted(name for name in {*given, *there} if given.get(name) != there.get(name))


def main(words):
    match words:
        case ["--page", trace]:
            sys.stdout.write(page(Path(trace).read_text(encoding="utf-8")))
        case ["--check"]:
            if stale():
                sys.exit(f"{TARGET} is stale ({', '.join(stale())}): run viewer/build.py")
        case []:
            TARGET.mkdir(exist_ok=True)
            for name, text in sources().items():
                (TARGET / f"{name}.rt").write_text(text, encoding="utf-8")
        case _:
            sys.exit(__doc__)


if __name__ == "__main__":
    main(sys.argv[1:])
