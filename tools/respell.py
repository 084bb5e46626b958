#!/usr/bin/env python3
"""Brings the repository's own definitions and lemmas to snake case, once, behind the kit's port.py.

usage: python3 tools/respell.py          at the top of the repository

A name of specs/ or proofs/ that has a dash or a capital behind a small letter turns: isHigh to is_high, lines-ascend to
lines_ascend. Where a lemma would fall together with a definition it gets _lem. Types, facts, modules and what the kit
names after the source (goals, steps) stay. In source files and edits clauses and imports turn, in pages code spans.
"""

import os
import re

WORD = r"[^\s(){}.;,@\"«»`\[\]\\]+"
HEAD = re.compile(
    r"^ *(?:(?:abbrev|unfoldable|opaque|pub|record|data)\s+)*(" + WORD + r")\s+:\s+(.*)"
)
# Lemmas in snake case already that would fall together with a definition.
MORE = {"each_placed": "each_placed_lem", "field_fits": "field_fits_lem"}


def files(*ends):
    for top in ("crates", "docs", "README.md"):
        if os.path.isfile(top):
            yield top
        for folder, inner, names in os.walk(top):
            inner[:] = sorted(it for it in inner if it != "out")
            for name in sorted(names):
                if name.endswith(ends):
                    yield os.path.join(folder, name)


def snake(name):
    turned = re.sub(r"([a-z0-9₀-₉])([A-Z])", lambda m: m.group(1) + "_" + m.group(2).lower(), name)
    return turned.replace("-", "_")


def table():
    names, shown = set(), set()
    for path in files(".antt"):
        for line in open(path, encoding="utf-8"):
            m = HEAD.match(line)
            if m and "/specs/" in path and "-" in m.group(1):
                shown.add(m.group(1))  # a field or a case that a reader of specs/ meets keeps its plain name
            if m and not m.group(2).startswith(("tie.", "{M : Type 1} → statement", "goal.")):
                names.add(m.group(1).rstrip("'"))
    old = {n for n in names if n[0].islower() and snake(n) != n}
    to = {n: snake(n) for n in old}
    camel = {to[n] for n in old if "-" not in n}
    for n in old:
        if "-" in n and n not in shown and to[n] in camel:
            to[n] += "_lem"
    to.update(MORE)
    return to, names


class Later(dict):
    """The table for pages and edits, where names stand that port.py turned in the sources alone."""

    def __init__(self, to, names):
        super().__init__(to)
        self.names = names

    def __contains__(self, word):
        return super().__contains__(word) or (word[:1].islower() and snake(word) != word and snake(word) in self.names)

    def __getitem__(self, word):
        return super().get(word) or snake(word)


def words(text, to):
    def one(m):
        word = m.group(0)
        bare = word.rstrip("'′")
        return to[bare] + word[len(bare):] if bare in to else word

    return re.sub(WORD, one, text)


def spans(text, to):
    text = re.sub(r"`[^`\n]*`", lambda m: words(m.group(0), to), text)
    return re.sub(r"(?<![\w`./-])[a-z]\w*(?![\w`/-])", lambda m: to[m.group(0)] if re.search(r"[a-z][A-Z]", m.group(0)) and m.group(0) in to else m.group(0), text)


def antt(text, to):
    out = []
    for line in text.split("\n"):
        at = re.search(r"(?:^|(?<=\s))--(?=\s|$)", line)
        code, said = (line[: at.start()], line[at.start():]) if at else (line, "")
        told = re.match(r"(-- two results of \S+: )(\S+)$", said)
        said = told.group(1) + words(told.group(2), to) if told else spans(said, to)
        out.append(words(code, to) + said)
    return "\n".join(out)


def source(text, to):
    """Comments by their spans; strings stay; code has these names in clauses and imports alone."""
    out = []
    for line in text.split("\n"):
        parts = re.split(r"(//.*|b?\"(?:\\.|[^\"\\])*\")", line)
        out.append("".join(
            spans(p, to) if p.startswith("//") else p if p.startswith(('"', 'b"')) else words(p, to) for p in parts))
    return "\n".join(out)


def edit(text, to):
    out, kind = [], antt
    for line in text.split("\n"):
        if line.startswith("file:"):
            kind = source if line.strip().endswith(".rt") else antt
        m = re.match(r"(old: ?|new: ?)(.*)", line)
        out.append(m.group(1) + kind(m.group(2), to).replace("′", "'") if m else line)
    return "\n".join(out)


def main():
    to, names = table()
    later = Later(to, names)
    for path in files(".antt", ".rt", ".edit", ".md"):
        if path == os.path.join("docs", "LANDINGS.md"):
            continue  # what landings moved, by the names that things had then
        with open(path, encoding="utf-8") as f:
            text = f.read()
        kind = {".antt": antt, ".rt": source, ".edit": edit, ".md": spans}[os.path.splitext(path)[1]]
        new = kind(text, later if kind in (edit, spans) else to)
        if kind in (antt, source):
            strip = (lambda t: re.sub(r"--.*", "", t)) if kind is antt else (lambda t: re.sub(r"//.*", "", t))
            seen = {}
            for w in set(re.findall(WORD, strip(text))):
                bare = w.rstrip("'′")
                turned = to.get(bare, bare) + w[len(bare):]
                seen.setdefault(turned, set()).add(w)
            for turned, ws in sorted(seen.items()):
                if len(ws) > 1:
                    print(f"{path}: {turned}: {', '.join(sorted(ws))}")
        if new != text:
            with open(path, "w", encoding="utf-8") as f:
                f.write(new)


main()
