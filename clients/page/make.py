#!/usr/bin/env python3
"""Makes log.html, one file with everything in it, from the files of src.

    python3 make.py            writes log.html
    python3 make.py --check    ends with 1 where log.html is not what would be written
"""
import base64
import hashlib
import json
import re
import sys
from pathlib import Path

FOLDER = Path(__file__).resolve().parent
SCRIPTS = ["wire.js", "points.js", "link.js", "drawing.js", "page.js"]
# The most bytes that the page may have.
LIMIT = 60_000
# A string, or a regular expression, which stands as an argument in these sources.
LITERAL = re.compile(r"""'(?:\\.|[^'\\\n])*'|"(?:\\.|[^"\\\n])*"|(?<=\()/(?:\\.|[^/\\\n])+/[a-z]*""")
# Signs that need no space beside them. A plus and a minus are not among them: two of them in a row would be another sign.
SIGN = re.compile(r" *([*/%=<>!&|^~?:;,(){}\[\]]) *")


def hash_of(text):
    """The hash by which a Content-Security-Policy allows an inline script or style."""
    return "sha256-" + base64.b64encode(hashlib.sha256(text.encode()).digest()).decode()


def source(name):
    return (FOLDER / "src" / name).read_text()


def bare(text, comment):
    """A source without its indentation and its comments, each of which has lines of its own."""
    text = re.sub(r"^ */\*\*.*?\*/$", "", text, flags=re.MULTILINE | re.DOTALL)
    lines = (line.strip() for line in text.splitlines())
    return "".join(line + "\n" for line in lines if line and not line.startswith(comment))


def close(text, at):
    """The place after the template that begins here, or after the braces of an expression in one."""
    is_template, at = text[at] == "`", at + 1
    while text[at] != ("`" if is_template else "}"):
        if is_template and text[at] == "\\":
            at += 2
        elif is_template and text.startswith("${", at):
            at = close(text, at + 1)
        elif not is_template and text[at] in "`{":
            at = close(text, at)
        elif not is_template and (literal := LITERAL.match(text, at)):
            at = literal.end()
        else:
            at += 1
    return at + 1


def packed(text):
    """A script without the spaces beside its signs. What is in quotes stays as it is."""
    made, code, at = [], 0, 0
    while at < len(text):
        literal = LITERAL.match(text, at)
        end = close(text, at) if text[at] == "`" else literal.end() if literal else None
        if end is None:
            at += 1
            continue
        made += [SIGN.sub(r"\1", text[code:at]), text[at:end]]
        code = at = end
    return "".join(made) + SIGN.sub(r"\1", text[code:])


def script():
    table = json.dumps(bare(source("schema.txt"), "#"))
    return f"\n'use strict';\nconst SCHEMA = {table};\n" + "".join(packed(bare(source(name), "//")) for name in SCRIPTS)


def page():
    made = source("log.html.in")
    style = "\n" + re.sub(r" *([{};,]) *|(?<=:) ", r"\1", bare(source("log.css"), "//"))
    parts = {"@SCRIPT_HASH@": hash_of(script()), "@STYLE_HASH@": hash_of(style), "@STYLE@": style, "@SCRIPT@": script()}
    for mark, text in parts.items():
        made = made.replace(mark, text)
    return made


def main():
    made, path = page(), FOLDER / "log.html"
    if len(made.encode()) > LIMIT:
        sys.exit(f"log.html would have {len(made.encode())} bytes, more than {LIMIT}")
    if sys.argv[1:] == ["--check"]:
        if not path.exists() or path.read_text() != made:
            sys.exit("log.html is not what make.py writes from src")
    else:
        path.write_text(made)


if __name__ == "__main__":
    main()
