"""The lines of the keys of a file in TOML, by its grammar: a second way to find what --explain finds in one pass.

    tree = read(text)
    find_lines(tree, "bad weight of member 3")
"""
import re

LONG, SHORT = r'"""(?:[^"\\]|\\.|"{1,2}(?!"))*"{3,5}', r'"(?:[^"\\\n]|\\.)*"'
LITERALS = r"'''(?:[^']|'{1,2}(?!'))*'{3,5}", r"'[^'\n]*'"
TOKEN = re.compile("|".join([r"[ \t\r]+|#[^\n]*|(?P<token>\n", LONG, LITERALS[0], SHORT, LITERALS[1], r"""[][{},=.]|[^\s#"',=.{}\[\]]+)"""]), re.S)
TOP, MEMBER = ["title", "quota", "quotas", "ways", "member"], ["name", "weight", "weights"]
ESCAPE = re.compile(r"\\(?:u([0-9A-Fa-f]{4})|U([0-9A-Fa-f]{8})|x([0-9A-Fa-f]{2})|(.))", re.S)


class Node:
    """A value: the line where it begins, and its keys, its elements or its text."""

    def __init__(self, line):
        self.line, self.keys, self.items, self.text = line, {}, None, None


class Reader:
    def __init__(self, text):
        self.tokens, line = [], 1
        for it in TOKEN.finditer(text):
            if it["token"]:
                self.tokens.append((it["token"], line))
            line += it[0].count("\n")
        self.tokens.append(("", line))
        self.tokens.reverse()

    def next(self):
        return self.tokens[-1][0]

    def skip(self, *wanted):
        """Skips these tokens, and returns the line of what follows."""
        while self.next() in wanted:
            self.tokens.pop()
        return self.tokens[-1][1]

    def key(self):
        """Reads a dotted key; returns its parts."""
        parts = [decode(self.tokens.pop()[0])]
        while self.next() == ".":
            self.tokens.pop()
            parts.append(decode(self.tokens.pop()[0]))
        return parts

    def pair(self, table):
        """Reads a key and its value into a table."""
        line = self.tokens[-1][1]
        *path, last = self.key()
        for it in path:
            table = table.keys.setdefault(it, Node(line))
        assert self.tokens.pop()[0] == "="
        table.keys[last] = self.value(line)

    def value(self, line):
        """Reads a value whose line is that of its key, or its own."""
        node, (token, _) = Node(line), self.tokens.pop()
        if token == "{":
            while self.skip("\n", ",") and self.next() != "}":
                self.pair(node)
            self.tokens.pop()
        elif token == "[":
            node.items = []
            while (at := self.skip("\n", ",")) and self.next() != "]":
                node.items.append(self.value(at))
            self.tokens.pop()
        else:
            node.text = decode(token)
            while self.next() not in (",", "]", "}", "\n", ""):
                self.tokens.pop()
        return node


def decode(token):
    """Returns what a key or a text says; a name in one kind of quotes is also that in another."""
    size = 3 if token[:3] in ('"""', "'''") else 1 if token[:1] in ('"', "'") else 0
    text = token[size : len(token) - size]
    letters = {"b": "\b", "t": "\t", "n": "\n", "f": "\f", "r": "\r", "e": "\x1b"}
    return ESCAPE.sub(lambda it: chr(int(it[1] or it[2] or it[3], 16)) if not it[4] else letters.get(it[4], it[4]), text) if token[:1] == '"' else text


def read(text):
    """Returns the tree of a text."""
    reader, top = Reader(text), Node(1)
    table = top
    while reader.skip("\n") and reader.next():
        if reader.next() != "[":
            reader.pair(table)
            continue
        line = reader.tokens.pop()[1]
        is_element = reader.next() == "["
        reader.skip("[")
        *path, last = reader.key()
        reader.skip("]")
        table = top
        for it in path:
            table = table.keys.setdefault(it, Node(line))
            table = table.items[-1] if table.items else table
        node = table.keys.setdefault(last, Node(line))
        if is_element:
            node.items = node.items or []
            node.items.append(Node(line))
        table = node.items[-1] if is_element else node
    return top


def find_way(keys):
    """Returns the way that is wrong, or the value of `ways` if none is so by itself or beside another."""
    found, rules = keys["ways"], [str(at + 1) for at in range(len(keys["quotas"].items))] if "quotas" in keys else []
    ways = found.items if rules and 1 <= len(found.items or []) <= 6 else []
    sets = [[it.text for it in way.items or []] for way in ways]
    wrong = [way for way, own in zip(ways, sets) if not own or len(set(own)) < len(own) or not set(own) <= set(rules)]
    wrong += [way for way, own in zip(ways, sets) if any(other is not own and set(other) <= set(own) for other in sets)]
    return (wrong + [found])[0]


def find_lines(top, fault):
    """Returns the lines that explain a fault, in their order."""
    keys, members = top.keys, getattr(top.keys.get("member"), "items", None) or []

    def of_top(*wanted):
        return [keys[it].line for it in wanted if it in keys]

    def of_member(number, key):
        member = members[number - 1]
        return [member.keys[key].line if key in member.keys else member.line]

    number = int(fault.split()[-1]) if fault[-1].isdigit() else 0
    if fault == "unknown key":
        odd = [of_top(it) for it in sorted(keys) if it not in TOP]
        return (odd + [of_member(at, it) for at, member in enumerate(members, 1) for it in sorted(member.keys) if it not in MEMBER])[0]
    if fault.startswith("member "):
        number = int(fault.split()[1])
        names = [getattr(it.keys.get("name"), "text", None) for it in members]
        return of_member(number, "name") + of_member(names.index(names[number - 1]) + 1, "name")
    if fault.startswith("bad name"):
        return of_member(number, "name")
    if fault.startswith("bad weight"):
        return of_member(number, "weights" if "quotas" in keys and keys["quotas"].items else "weight")
    if fault == "bad ways":
        return [find_way(keys).line]
    if fault == "bad member list":
        return of_top("member") if "member" in keys and keys["member"].items is None else []
    return of_top("title") if fault == "bad title" else of_top("quotas", "quota")
