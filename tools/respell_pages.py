#!/usr/bin/env python3
"""Brings the names that pages put between backticks to the spelling that tools/respell.py gave the definitions and lemmas.

usage: tools/respell_pages.py NAMES.json PAGE..      NAMES.json: an object, old name to new

Landing notes (docs/landings) tell of their time and keep its names.
"""
import json
import os
import re
import sys

WORD = re.compile(r"(?<![\w'-])[^\W\d][\w']*(?:-[\w'*]+)*(?![\w'])")


def main():
    if len(sys.argv) < 3 or sys.argv[1].startswith("-"):
        print(__doc__.strip(), file=sys.stderr)
        sys.exit(2)
    names = json.load(open(sys.argv[1], encoding="utf-8"))
    for page in sys.argv[2:]:
        text = open(page, encoding="utf-8").read()
        parts = re.split(r"(`[^`\n]*`)", text)
        parts[1::2] = [WORD.sub(lambda m: names.get(m.group(0), m.group(0)), x) for x in parts[1::2]]
        new = "".join(parts)
        if new != text:
            beside = page + ".respelled"
            with open(beside, "x", encoding="utf-8") as f:
                f.write(new)
                f.flush()
                os.fsync(f.fileno())
            os.chmod(beside, os.stat(page).st_mode & 0o7777)
            os.replace(beside, page)


main()
