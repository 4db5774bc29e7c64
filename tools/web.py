#!/usr/bin/env python3
"""Puts the sources of web/ and a module together:

    tools/web.py MODULE MADE FOLDER     for tools/web.sh; MADE says with what the module was made
    tools/web.py PAGE FOLDER            of the module in a page

makes council.html, one page that holds all and loads nothing, and council.mjs with its types and package.json.
"""
import base64
import hashlib
import json
import os
import re
import sys

TOP = os.path.dirname(os.path.dirname(os.path.realpath(__file__)))
EXAMPLES = ["eec-1958", "holler-1982", "board", "share-register", "two-of-three", "un-security-council", "us-federal",
            "ca-amendment", "de-bundesrat", "eu-1995", "eu-27-nice", "eu-27-lisbon"]


def read(path):
    with open(f"{TOP}/{path}", encoding="utf-8") as it:
        return it.read()


def hash_of(text):
    """The hash of an inline script or style, for the policy of the page."""
    return f"'sha256-{base64.b64encode(hashlib.sha256(text.encode()).digest()).decode()}'"


def escape(text):
    return text.replace("&", "&amp;").replace('"', "&quot;").replace("<", "&lt;")


def make_page(module, made):
    """The page: its policy allows its own script and style, workers of it, and the module."""
    script = "\n".join(read(f"web/{it}.js") for it in ("library", "game", "page"))
    style = read("web/page.css")
    policy = f"default-src 'none'; script-src {hash_of(script)} 'wasm-unsafe-eval'; worker-src blob:; style-src {hash_of(style)}; img-src data:; base-uri 'none'; form-action 'none'"
    examples = {}
    for name in EXAMPLES:
        text = read(f"examples/{name}.toml")
        title = re.search(r'^title = "(.*)"$', text, re.M)
        examples[title[1] if title else name] = text
    parts = {"POLICY": policy, "MADE": escape(made), "STYLE": style, "SCRIPT": script, "MODULE": module,
             "EXAMPLES": json.dumps(examples, ensure_ascii=False).replace("<", "\\u003c")}
    page = re.sub("@([A-Z]+)@", lambda it: parts[it[1]], read("web/page.html"))
    assert "</script" not in script and "<!--" not in script and "</style" not in style
    return page


def main(folder, module, made):
    """Writes all files, of the module in base64."""
    version = re.search(r'^version = "(.*)"$', read("python/pyproject.toml"), re.M)[1]
    package = {"name": "council", "version": version, "description": "Power indices of weighted votes, by a proved library",
               "type": "module", "exports": {".": {"types": "./council.d.ts", "default": "./council.mjs"}},
               "files": ["council.mjs", "council.d.ts"], "engines": {"node": ">=18"}, "license": "MIT OR Apache-2.0"}
    files = {"council.html": make_page(module, made), "package.json": json.dumps(package, indent=2) + "\n",
             "council.mjs": f'// {made}\nconst MODULE = "{module}";\n' + read("web/library.js") + read("web/council.mjs"),
             "council.d.ts": read("web/council.d.ts")}
    os.makedirs(folder, exist_ok=True)
    for name, text in files.items():
        with open(f"{folder}/{name}", "w", encoding="utf-8") as it:
            it.write(text)


if len(sys.argv) == 3:
    with open(sys.argv[1], encoding="utf-8") as page:
        parts = re.search(r'name="generator" content="([^"]*)".*id="module">([^<]*)<', page.read(), re.S)
    assert parts, f"{sys.argv[1]} is no page of council"
    main(sys.argv[2], parts[2], parts[1])
else:
    with open(sys.argv[1], "rb") as it:
        main(sys.argv[3], base64.b64encode(it.read()).decode(), sys.argv[2])
