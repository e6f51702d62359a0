#!/usr/bin/env python3
"""Writes the template of a page in pieces, as Rust constants, to `crates/hep_page/src/template.rt`.

The template is page.html with page.css and page.js in it; between its pieces are the source, what everything holds at first, what each turn
does, and what it changes. The page may run no script but this one, which it knows by its sum. `tests/words` compares the constants with it.
"""
import base64
import hashlib
import re
import sys
from pathlib import Path

HERE = Path(__file__).resolve().parent
TEMPLATE = HERE.parent.parent / "crates/hep_page/src/template.rt"
NAMES = ["BEFORE_SOURCE", "BEFORE_OPENING", "BEFORE_TRACE", "BEFORE_CHANGES", "END"]


def sum_of(script):
    """The sum by which a page knows its script."""
    return base64.b64encode(hashlib.sha256(b"\n" + script.encode()).digest()).decode()


def pieces():
    """The five pieces."""
    html, style, script = ((HERE / name).read_text() for name in ("page.html", "page.css", "page.js"))
    filled = {"HASH": sum_of(script), "CSS": style, "JS": script}
    whole = re.sub("@(HASH|CSS|JS)@", lambda it: filled[it[1]], html)
    return re.split("@(?:SOURCE|OPENING|TRACE|CHANGES)@", whole)


def constants():
    text = ["//! The template of a page in pieces, which `docs/page/pieces.py` writes.\n"]
    for name, piece in zip(NAMES, pieces(), strict=True):
        text.append(f'\n/// A piece of the template.\npub const {name}: &str = r##"{piece}"##;\n')
    return "".join(text)


if __name__ == "__main__":
    if sys.argv[1:]:
        sys.exit(__doc__)
    TEMPLATE.write_text(constants())
