#!/usr/bin/env python3
"""Turns the names that this repository's definitions and lemmas have to today's spelling: words in snake case, types in camel case.

usage: tools/respell.py        once, at the top, right after the kit's port.py

A name is turned if a text of specs/ or proofs/ declares it. A lemma whose new name another definition or lemma has already takes `_lem`.
Turned are the texts, the clauses and comments of sources, the must-fail edits, and the code spans of pages. What Rattle itself makes keeps its name: a name
behind a dot is turned only at the end of a path, or if it is a field of a record of ours.
"""

import os
import re
import subprocess

NAME = r"""[^\s(){}.;,@"«»`]+"""
DECLARED = re.compile(rf"(?m)^ *(?:(?:pub|abbrev|unfoldable|pattern|let|where) +)*({NAME})(?: \{{[^{{}}\n]*\}})* :(?= |$)")
FIELD = re.compile(rf"(?m)^  (?:pub )?({NAME}) :(?= |$)")
RECORD = re.compile(r"(?m)^(?:\w+ )*record [^\n]*\n((?:(?:  [^\n]*)?\n)*)")
WORD = re.compile(NAME)
SPAN = re.compile(r"`[^`\n]+`")
MADE = ("invariant-", "decreases-")


def in_snake_case(name):
    words = re.sub(r"(?<=[a-z0-9])[A-Z]", lambda m: "_" + m[0].lower(), name)
    return re.sub(r"-([A-Z]?)", lambda m: "_" + m[1].lower(), words)


def read(path):
    with open(path, encoding="utf-8") as f:
        return f.read()


def listed(*kinds):
    out = subprocess.run(["git", "ls-files"], capture_output=True, text=True, check=True).stdout.splitlines()
    return [p for p in out if p.endswith(kinds) and os.path.isfile(p) and not os.path.islink(p)]


def without_comments(text):
    return re.sub(r"--[^\n]*", "", text)


def table(texts):
    """The new name of each name that is to be turned, and the fields of our records among them."""
    in_specs, declared, fields = set(), set(), set()
    for path, text in texts.items():
        text = without_comments(text)
        names = set(DECLARED.findall(text))
        declared |= names
        in_specs |= names if "/specs/" in path else set()
        for body in RECORD.findall(text):
            fields |= set(FIELD.findall(body))
    old = [n for n in declared if in_snake_case(n) != n and not n[0].isupper() and n[0] not in "◌+" and not n.startswith(MADE)]
    new, taken = {}, {n for n in in_specs if in_snake_case(n) == n}
    clashing = {n for n in declared - in_specs if n in {in_snake_case(o) for o in old if o in in_specs}}
    for name in sorted(old + list(clashing), key=lambda n: (n not in in_specs, n not in declared or "-" in n, n)):
        to = in_snake_case(name)
        while to in taken or (to in declared and to != name and to not in clashing):
            to += "_lem"
        if to != name:
            new[name] = to
        taken.add(to)
    return new, fields & set(new)


def turn_words(text, new, fields):
    def word(m):
        inside = text[: m.start()].endswith(".") and text[m.end() :].startswith(".")
        return m[0] if inside and m[0] not in fields else new.get(m[0], m[0])

    return WORD.sub(word, text)


def turn_spans(text, new):
    new = {k: v for k, v in new.items() if in_snake_case(k) != k}
    return SPAN.sub(lambda m: WORD.sub(lambda w: new.get(w[0], w[0]), m[0]), text)


def turn_antt(text, new, fields):
    lines = []
    for line in text.split("\n"):
        at = re.search(r"(?:^|\s)--(?=\s|$)", line)
        code, comment = (line[: at.start()], line[at.start() :]) if at else (line, "")
        lines.append(turn_words(code, new, fields) + turn_spans(comment, new))
    return "\n".join(lines)


def turn_rt(text, new):
    camel = {k: v for k, v in new.items() if re.search("[A-Z]", k)}
    lines = []
    for line in text.split("\n"):
        at = line.find("//")
        code, comment = (line[:at], line[at:]) if at >= 0 else (line, "")
        lines.append(re.sub(r"[A-Za-z_]\w*", lambda m: camel.get(m[0], m[0]), code) + turn_spans(comment, new))
    return "\n".join(lines)


def turn_edit(text, new, fields):
    lines, antt = [], False
    for line in text.split("\n"):
        if line.startswith("file:"):
            antt = line.strip().endswith(".antt")
            lines.append(line)
        elif re.match(r"(old|new):", line):
            lines.append(turn_antt(line, new, fields) if antt else turn_rt(line, new))
        else:
            lines.append(turn_spans(line, new))
    return "\n".join(lines)


def main():
    texts = {p: read(p) for p in listed(".antt") if p.startswith("crates/")}
    new, fields = table(texts)
    # Names that the kit's script turned already: pages and edits still have them.
    before = subprocess.run(["git", "grep", "-hE", r"^ *((pub|abbrev|unfoldable) +)*[a-z][^ .]* :", "d37dbfd2a5f1b7160bd4874464522812e98bf495", "--", "crates/*.antt"], capture_output=True, text=True).stdout
    landed = {n for n in DECLARED.findall(before) if in_snake_case(n) != n and n not in new and not n[0].isupper() and not n.startswith(MADE)}
    pages = new | {n: in_snake_case(n) for n in landed}
    for path in listed(".antt", ".rt", ".edit", ".md"):
        text = read(path)
        if path.endswith(".antt"):
            turned = turn_antt(text, new, fields)
        elif path.endswith(".rt"):
            turned = turn_rt(text, new)
        elif path.endswith(".edit"):
            turned = turn_edit(text, pages, fields)
        else:
            turned = turn_spans(text, pages)
        if turned != text:
            with open(path, "w", encoding="utf-8") as f:
                f.write(turned)
    for name, to in sorted(new.items()):
        if to.endswith("_lem"):
            print(f"{name}: {to}, since {to[:-4]} is another's name")
    print(f"{len(new)} names turned")


main()
