#!/usr/bin/env python3
"""Brings this repository's own definitions and lemmas to the spelling of today's Rattle: words in snake case.

usage: python3 tools/port_names.py            at the top of the repository, once, after port.py

Of a name whose parts a dash joins, each part that is in lower camel case is turned: `length-partBits` becomes
`length-part_bits`. It reads specs/, proofs/ and src/ of every crate, and the pairs of must-fail edits; in comments, README.md and docs/
only a definition's name is turned. Names of a file that fall together, but for fields, are told: a definition beside a function or a
label of a record of the same name is as it should be, and those that would meet in one scope stand in LOCAL.
"""

import os
import re
import sys

WORD = re.compile(r"(?<![\w'])[a-z][A-Za-z0-9_]*'?(?![\w'])")
CAMEL = re.compile(r"[a-z][a-z0-9_]*[A-Z]")
DEFINED = re.compile(r"(?m)^\s*(?:(?:unfoldable|abbrev|pub|data|record|axiom)\s+)*([a-z][^\s:(){}=]*) (?::|\()")
# what stands for an older name of the library, or a name that would hide or be hidden by another
SPECIAL = {"getD": "get_or"}
# the source documents' own names, in comments
# names that a turned one would meet in the same scope
LOCAL = {
    "crates/portions/proofs/Laws/Header.antt": {"name_in": "name_in-held"},
    "crates/days/proofs/Laws/Answer.antt": {"too_many": "too_many-is"},
    "crates/portion_reader/proofs/Security.antt": {"not-past": "NotPast", "past": "Past"},
}
FOREIGN = {"ulProvNameLen", "ulAllocBodyBufferInBytes", "pulAuthProvNameLenProp"}


def snake(word):
    if word in SPECIAL:
        return SPECIAL[word]
    return re.sub(r"(?<=[a-z0-9])(?=[A-Z])", "_", word).lower()


def paths():
    for folder, dirs, files in os.walk("crates"):
        dirs[:] = sorted(d for d in dirs if d != "out")
        for name in sorted(files):
            if name.endswith((".rt", ".antt", ".edit")):
                yield os.path.join(folder, name)


def pages():
    yield "README.md"
    for folder, _, files in os.walk("docs"):
        for name in sorted(files):
            if name.endswith(".md"):
                yield os.path.join(folder, name)


def defined():
    names = set()
    for path in paths():
        if path.endswith(".antt"):
            with open(path, encoding="utf-8") as it:
                for name in DEFINED.findall(it.read()):
                    names |= set(name.split("-"))
    return names


def turn_code(text):
    return WORD.sub(lambda m: snake(m[0]) if CAMEL.match(m[0]) and m[0] not in FOREIGN else m[0], text)


def turn_comment(text, names):
    return WORD.sub(lambda m: snake(m[0]) if CAMEL.match(m[0]) and m[0] in names else m[0], text)


STRING = re.compile(r'"(?:[^"\\]|\\.)*"')


def turn_line(line, mark, names):
    """A line of code, with strings left alone and a comment behind `mark`."""
    out, at = [], 0
    while at < len(line):
        string = STRING.match(line, at) if line[at] == '"' else None
        if line.startswith(mark, at):
            out.append(turn_comment(line[at:], names))
            return "".join(out)
        if string:
            out.append(string[0])
            at = string.end()
            continue
        end = at + 1
        while end < len(line) and line[end] != '"' and not line.startswith(mark, end):
            end += 1
        out.append(turn_code(line[at:end]))
        at = end
    return "".join(out)


def turn(path, text, names):
    if path.endswith(".edit"):
        into_rt = ".rt" in text.split("\n", 1)[0]
        lines = []
        for line in text.split("\n"):
            if line.startswith(("old:", "new:")):
                line = line[:4] + turn_line(line[4:], "//" if into_rt else "--", names)
            else:
                line = turn_comment(line, names) if not line.startswith("file:") else line
            lines.append(line)
        return "\n".join(lines)
    for old, new in LOCAL.get(path, {}).items():
        text = re.sub(r"(?<![\w'.-])" + re.escape(old) + r"(?![\w'-])", new, text)
    mark = "//" if path.endswith(".rt") else "--"
    return "\n".join(turn_line(line, mark, names) for line in text.split("\n"))


def fallen_together(path, text):
    """Words of the file that a turned word would meet, but for fields, which stand behind a dot."""
    words = set(re.findall(r"(?<![\w'.])[a-z][A-Za-z0-9_]*'?(?![\w'])", re.sub(r"(?m)(--|//).*$", "", text)))
    return sorted((w, snake(w)) for w in words if CAMEL.match(w) and snake(w) != w and snake(w) in words)


def main():
    names = defined()
    texts = {}
    for path in paths():
        with open(path, encoding="utf-8") as it:
            texts[path] = it.read()
    met = 0
    for path, text in texts.items():
        for old, new in fallen_together(path, text):
            print(f"look: {path}: {old} -> {new}, which the file has")
            met += 1
    if "--check" in sys.argv:
        return
    for path, text in texts.items():
        new = turn(path, text, names)
        if new != text:
            with open(path, "w", encoding="utf-8") as it:
                it.write(new)
    for path in pages():
        with open(path, encoding="utf-8") as it:
            text = it.read()
        new = re.sub(r"`[^`\n]*`", lambda m: turn_comment(m[0], names), text)
        if new != text:
            with open(path, "w", encoding="utf-8") as it:
                it.write(new)


main()
