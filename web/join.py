#!/usr/bin/env python3
"""Joins the page and its scripts with the library into one file: join.py LIBRARY.wasm HOW [SCRIPT..] > page.html

HOW tells how the library was built. The scripts are examples that the page offers."""
import base64
import json
import os
import re
import sys

PARTS = ("desk", "areas", "script", "player", "picture", "hands", "page")
HERE = os.path.dirname(os.path.abspath(__file__))


def text_of(path):
    with open(path, encoding="utf-8") as file:
        return file.read()


def data(library, how, examples):
    """The script that has the library, the letters and the examples."""
    with open(library, "rb") as file:
        wasm = base64.b64encode(file.read()).decode()
    letters = dict(re.findall(r"^glyph (..) (.{16})$", text_of(f"{HERE}/letters.layers"), re.M))
    scripts = {os.path.basename(it): text_of(it) for it in examples}
    parts = {"WASM": wasm, "BUILT": how, "GLYPHS": letters, "EXAMPLES": scripts}
    return "\n".join(f"const {name} = {json.dumps(it)};" for name, it in parts.items())


def main():
    library, how, *examples = sys.argv[1:]
    scripts = [data(library, how, examples)]
    scripts += [text_of(f"{HERE}/{it}.js") for it in PARTS]
    joined = "".join(f"<script>\n{it}\n</script>\n" for it in scripts)
    page = text_of(f"{HERE}/page.html")
    sys.stdout.write(page.replace("<!-- SCRIPTS -->\n", joined))


if __name__ == "__main__":
    main()
