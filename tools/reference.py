#!/usr/bin/env python3
"""Makes a reference of the libraries as pages of HTML, from the sources alone:

    tools/reference.py FOLDER

A page for each library, one of all laws, one of the package for Python, and an index with a search that needs no server. On a page stand the public items with their doc
comments, signatures and clauses, as the sources have them, and then the definitions of specs/ that clauses may name. Each
name of a clause or a definition is linked to its text. What is of the standard library has no link.
"""
import glob
import html
import inspect
import json
import os
import re
import sys

TOP = os.path.dirname(os.path.dirname(os.path.realpath(__file__)))
USE = re.compile(r"^\s*(?:unfoldable )?(?:pub )?(?:ghost )?use Rattle\.([\w.]+?)(?:\.\{(.*)\}| as (\w+));?\s*$", re.M)
DEFINES = re.compile(r"^\s*(?:(?:abbrev|unfoldable|pub|record|data) )+(\S+?)(?= |$)")
HEAD = re.compile(r"^(\s*)(pub )(?:unsafe )?(?:extern \S+ )?(fn|struct|enum|trait|const|type) (\w+)")
WORD = re.compile(r"[A-Za-z_◌][\w'◌×]*")

STYLE = """body{font:16px/1.5 system-ui,sans-serif;max-width:60rem;margin:0 auto;padding:1rem;color:#1b1b1b;background:#fff}
pre{background:#f4f4f1;padding:.7rem;overflow-x:auto;font:14px/1.45 ui-monospace,monospace;border-radius:4px}
a{color:#0b57a4;text-decoration:none}a:hover{text-decoration:underline}h2{border-bottom:1px solid #ccc;margin-top:2.5rem}
h3{margin:1.6rem 0 .3rem}input{font:inherit;width:100%;padding:.4rem;box-sizing:border-box}:target{background:#fff6cc}
@media(prefers-color-scheme:dark){body{color:#ddd;background:#181818}pre{background:#242424}a{color:#8ab4f8}:target{background:#4a4218}}
"""
SEARCH = """const box=document.getElementById('search'),out=document.getElementById('found');
box.oninput=()=>{const w=box.value.toLowerCase();out.replaceChildren();if(!w)return;
for(const [n,k,to] of ITEMS.filter(i=>i[0].toLowerCase().includes(w)).slice(0,60)){
const li=document.createElement('li'),a=document.createElement('a');a.href=to;a.textContent=n;li.append(a,' '+k);out.append(li)}};
"""


def read(path):
    with open(path, encoding="utf-8") as it:
        return it.read()


def libraries():
    """The names of the libraries, as crates.txt has them: no program, and no crate of tests."""
    heads = [line.split(":")[0].split()[0] for line in read(f"{TOP}/crates.txt").split("\n") if ":" in line]
    return [it for it in heads if os.path.exists(f"{TOP}/crates/{it}/src/lib.rt") and not it.endswith("_tests")]


def exported(root):
    """Which items of which module a library hands out: by the module, the names, or none for all; and those of other crates."""
    own, others = {}, []
    for line in re.findall(r"^pub use ([^;]+);", root, re.M):
        path, _, names = line.partition("::{")
        path, *rest = path.split("::") if names else line.split("::")
        listed = [it.strip() for it in names.rstrip("}").split(",")] if names else rest[-1:]
        own.setdefault(path, []).extend(listed)
    for module in re.findall(r"^pub mod (\w+);", root, re.M):
        own[module] = None
    return own


def doc_before(lines, at):
    """The doc comment and the attributes above a line."""
    first = at
    while first > 0 and lines[first - 1].strip().startswith(("///", "#[")):
        first -= 1
    return [it.strip()[3:].removeprefix(" ") for it in lines[first:at] if it.strip().startswith("///")]


def head_of(lines, at):
    """An item from its first line up to its body: the clauses of a function, the whole of a type or a trait."""
    indent = re.match(r"\s*", lines[at])[0]
    kind = HEAD.match(lines[at])
    taken = []
    whole = bool(kind) and kind[3] in ("struct", "enum", "trait")
    for line in lines[at:]:
        if not whole and line == f"{indent}{{":
            break
        taken.append(line)
        if line.startswith(f"{indent}}}") or (line.endswith(";") or line.endswith("{}")) and (len(taken) == 1 or not whole):
            break
        if not whole and line.endswith("{") and "fn " in taken[0] and not line.strip().startswith(("requires", "ensures")) and len(taken) == 1:
            break
    if whole and kind[3] == "struct":
        taken = without_private_fields(taken)
    return [it[len(indent):] if whole else it[len(indent):].removesuffix(" {") for it in taken]


def without_private_fields(lines):
    """A struct without the fields that are its own affair, and without their comments."""
    kept, comment = [], []
    for line in lines:
        if line.strip().startswith("///"):
            comment.append(line)
            continue
        if not re.match(r"\s+(?!pub )(?:pub\(crate\) )?(?:ghost )?[a-z_]\w*: ", line):
            kept += [*comment, line]
        comment = []
    return [kept[0] + " .. }"] if kept[1:] == ["}"] else kept


def items(crate):
    """The public items of a library: each with its module, owner, kind, name, doc comment and text."""
    source, found = f"{TOP}/crates/{crate}/src", []
    exports = exported(read(f"{source}/lib.rt"))
    known = {name for names in exports.values() for name in names or []}
    # the methods of a type may stand in another module, and that comes behind its own
    modules = [it for it in exports if os.path.exists(f"{source}/{it}.rt")]
    others = sorted(os.path.basename(path)[:-3] for path in glob.glob(f"{source}/*.rt"))
    for module in [*modules, *(it for it in others if it not in modules)]:
        lines, types, owner = read(f"{source}/{module}.rt").split("\n"), exports.get(module, []), None
        for at, line in enumerate(lines):
            impl = re.match(r"impl(?:<.*?>)? (?:(\S+?)(?:<.*>)? for )?([A-Z]\w*)", line)
            if impl:
                owner = impl[2]
                if impl[1] == "Model" and (types is None or owner in known):
                    end = next(it for it in range(at, len(lines)) if lines[it] == "}")
                    found.append((module, owner, "view", f"{owner} in contracts", [], [it for it in lines[at:end + 1] if "ghost use" not in it and it.strip()]))
            elif line == "}":
                owner = None
            it = HEAD.match(line)
            if not it or "pub(crate)" in line:
                continue
            name = owner if it[1] and owner else it[4]
            if types is not None and name not in (known if it[1] else types):
                continue
            if it[1] and not owner:
                continue
            found.append((module, owner if it[1] else None, it[3], it[4], doc_before(lines, at), head_of(lines, at)))
    return found


def definitions(crate):
    """The definitions of a library that others may name: the module, its comment, and each paragraph with the names in it."""
    specs = f"{TOP}/crates/{crate}/specs"
    for path in sorted(glob.glob(f"{specs}/**/*.antt", recursive=True)):
        module = os.path.relpath(path, specs)[:-5].replace("/", ".")
        text = read(path)
        blocks = []
        for block in re.split(r"\n\s*\n", text):
            names = [m[1] for line in block.split("\n") if (m := DEFINES.match(line)) and m[1] not in ("use", "mod")]
            code = "\n".join(line for line in block.split("\n") if not re.match(r"\s*(?:unfoldable |pub |ghost )*use ", line))
            if names and code.strip():
                blocks.append((names, code))
        if blocks:
            yield module, blocks


def anchor(*parts):
    return ".".join(it for it in parts if it)


class Links:
    """Where the text of each name stands."""

    def __init__(self, crates):
        self.to = {}
        self.uses = {}
        for crate in crates:
            for module, owner, kind, name, _, _ in items(crate):
                at = f"{crate}.html#{anchor(owner if kind != 'view' else None, name.replace(' in contracts', '-view'))}"
                self.to[(f"{crate}.specs.declared.{module}.TheConstants", name)] = at
                self.to.setdefault((f"{crate}.specs.declared.{module}.{name}", name), at)
            for module, blocks in definitions(crate):
                for names, _ in blocks:
                    for name in names:
                        self.to[(f"{crate}.specs.{module}", name)] = f"{crate}.html#specs.{module}.{name}"
        for crate in crates:
            for path in glob.glob(f"{TOP}/crates/{crate}/specs/**/*.antt", recursive=True):
                module = os.path.relpath(path, f"{TOP}/crates/{crate}/specs")[:-5].replace("/", ".")
                self.uses[f"{crate}.specs.{module}"] = self.imports(read(path))

    @staticmethod
    def imports(text):
        found = {}
        for module, names, _ in USE.findall(text):
            for name in names.split(","):
                old, _, new = name.strip().partition(" as ")
                if old:
                    found[new or old] = (module, old)
        return found

    def find(self, module, name, depth=4):
        """Where a name of a module stands, or of a module that it passes on."""
        if (module, name) in self.to:
            return self.to[(module, name)]
        onward = self.uses.get(module, {}).get(name)
        return self.find(*onward, depth - 1) if onward and depth else None

    def mark(self, text, imports, module=None):
        """A text as HTML, with its names linked."""
        done, at = [], 0
        for word in WORD.finditer(text):
            target = self.find(*imports[word[0]]) if word[0] in imports else self.to.get((module, word[0]))
            done.append(html.escape(text[at:word.start()]))
            shown = html.escape(word[0])
            done.append(f'<a href="{target}">{shown}</a>' if target else shown)
            at = word.end()
        return "".join([*done, html.escape(text[at:])])


def prose(lines):
    """A doc comment as HTML: paragraphs, headings, lists, and pieces of code."""
    out, code = [], None
    for block in re.split(r"\n\n(?=(?:[^`]|`(?!``))*(?:```[^`]*```[^`]*)*$)", "\n".join(lines)):
        if not block.strip():
            continue
        code = re.match(r"```\w*\n(.*?)\n?```$", block.strip(), re.S)
        text = re.sub(r"`([^`]+)`", r"<code>\1</code>", html.escape(block.strip(), quote=False))
        if code:
            out.append(f"<pre>{html.escape(code[1])}</pre>")
        elif text.startswith("# "):
            out.append(f"<h4>{text[2:]}</h4>")
        elif text.startswith("- "):
            out.append("<ul>" + "".join(f"<li>{it}</li>" for it in re.split(r"\n?^- ", text, flags=re.M)[1:]) + "</ul>")
        else:
            out.append(f"<p>{text}</p>")
    return "".join(out)


def page(title, body):
    return (f'<!doctype html>\n<html lang="en">\n<meta charset="utf-8">\n<meta name="viewport" content="width=device-width">\n'
            f"<title>{html.escape(title)}</title>\n<style>{STYLE}</style>\n<body>\n{body}\n</body>\n</html>\n")


def page_of(crate, links):
    """The page of a library."""
    source = f"{TOP}/crates/{crate}/src"
    root = read(f"{source}/lib.rt")
    out = [f'<p><a href="index.html">All libraries</a></p><h1>{crate}</h1>', prose([it[3:].removeprefix(" ") for it in root.split("\n") if it.startswith("//!")])]
    passed = [(path, it) for path, names in exported(root).items() if names and not os.path.exists(f"{source}/{path}.rt") for it in names]
    if passed:
        out.append("<p>Handed on: " + ", ".join(f'<a href="{path}.html">{path}::{it}</a>' for path, it in passed if os.path.exists(f"{TOP}/crates/{path}")) + "</p>")
    for module, owner, kind, name, doc, text in items(crate):
        imports = links.imports(read(f"{source}/{module}.rt"))
        at = anchor(owner if kind != "view" else None, name.replace(" in contracts", "-view"))
        title = f"{owner}::{name}" if owner and kind != "view" else name
        out.append(f'<h3 id="{at}">{html.escape(title)}</h3>{prose(doc)}<pre>{links.mark(chr(10).join(text), imports)}</pre>')
    defined = list(definitions(crate))
    if defined:
        out.append("<h2>Definitions</h2>")
    for module, blocks in defined:
        out.append(f'<h3 id="specs.{module}">{module}</h3>')
        for names, code in blocks:
            marks = "".join(f'<span id="specs.{module}.{html.escape(it)}"></span>' for it in names)
            out.append(f"{marks}<pre>{links.mark(code, links.uses[f'{crate}.specs.{module}'], f'{crate}.specs.{module}')}</pre>")
    return page(crate, "\n".join(out))


def index(crates):
    """The first page, with all names for the search."""
    names, rows = [], []
    for crate in crates:
        for _, owner, kind, name, _, _ in items(crate):
            if kind != "view":
                names.append((f"{owner}::{name}" if owner else name, crate, f"{crate}.html#{anchor(owner, name)}"))
        for module, blocks in definitions(crate):
            names += [(it, f"{crate}, definition", f"{crate}.html#specs.{module}.{it}") for them, _ in blocks for it in them]
        first = re.search(r"^//! (.*(?:\n//! .+)*)", read(f"{TOP}/crates/{crate}/src/lib.rt"), re.M)
        rows.append(f'<li><a href="{crate}.html">{crate}</a>: {html.escape(first[1].replace(chr(10) + "//! ", " ") if first else "")}</li>')
    listed = json.dumps(sorted(names), ensure_ascii=False).replace("<", "\\u003c")
    body = (f'<h1>Libraries of council</h1><p><input id="search" placeholder="A call, a type or a definition" aria-label="Search"></p><ul id="found"></ul>'
            f'<ul>{"".join(rows)}<li><a href="laws.html">All laws</a></li><li><a href="python.html">The package for Python</a></li></ul>'
            f"<script>const ITEMS={listed};{SEARCH}</script>")
    return page("Libraries of council", body)


def laws(crates, links):
    """The laws of all libraries: what each says, and its clauses."""
    out = ['<p><a href="index.html">All libraries</a></p><h1>Laws</h1><p>What the definitions say of each other.</p>']
    for crate in crates:
        for module, _, _, name, doc, text in items(crate):
            if module == "laws":
                imports = links.imports(read(f"{TOP}/crates/{crate}/src/laws.rt"))
                out.append(f'<h3><a href="{crate}.html#{name}">{crate}::laws::{name}</a></h3>{prose(doc)}<pre>{links.mark(chr(10).join(text), imports)}</pre>')
    return page("Laws", "\n".join(out))


def python():
    """The package for Python: what it exports, by signatures and docstrings."""
    sys.dont_write_bytecode = True
    sys.path.insert(0, f"{TOP}/python/src")
    import council

    def write(name, it, kept=""):
        # examples and exceptions keep their lines
        blocks = (inspect.getdoc(it) or "").split("\n\n")
        text = "\n\n".join(f"```\n{block}\n```" if block.startswith((">>>", "Raises:")) else block for block in blocks)
        return f'<h3 id="{name}">{name}</h3>{kept}{prose(text.split(chr(10)))}'

    def sign(name, it):
        signature = re.sub("(: |-> )'(.*?)'", r"\1\2", str(inspect.signature(it)))
        return f"<pre>{html.escape(name + signature)}</pre>"

    out = [f'<p><a href="index.html">All libraries</a></p><h1>The package for Python</h1>{write("council", council)}']
    for name in council.__all__:
        it = getattr(council, name)
        out.append(write(name, it, sign(name, it) if name == "Game" or not inspect.isclass(it) else ""))
        for key, method in vars(it).items() if inspect.isclass(it) else ():
            if not key.startswith("_") and inspect.isfunction(method):
                out.append(write(f"{name}.{key}", method, sign(f"{name}.{key}", method)))
    return page("The package for Python", "\n".join(out))


def main():
    if len(sys.argv) != 2 or sys.argv[1].startswith("-"):
        sys.exit("usage: tools/reference.py FOLDER")
    crates = libraries()
    links = Links(crates)
    os.makedirs(sys.argv[1], exist_ok=True)
    for name, text in [("index", index(crates)), ("laws", laws(crates, links)), ("python", python()), *((it, page_of(it, links)) for it in crates)]:
        with open(f"{sys.argv[1]}/{name}.html", "w", encoding="utf-8") as it:
            it.write(text)


if __name__ == "__main__":
    main()
