#!/usr/bin/env python3
# Groups of functions of src/ that differ only in names, types and literals: `python3 tools/twins.py [COMMIT]`.
import re
import subprocess
import sys

LEAST = 14  # tokens of a body: shorter ones are alike by chance


def git(*words):
    return subprocess.run(["git", *words], check=True, capture_output=True, text=True).stdout


def body(lines, start):
    indent = re.match(" *", lines[start])[0]
    for i in range(start, len(lines)):
        line = lines[i]
        if line == indent + "{" or (line.endswith(" {") and not re.match(r" *(requires|ensures)\b", line)):
            end = lines.index(indent + "}", i)
            return "\n".join(lines[i + 1:end])
    return ""


def shape(code):
    code = re.sub(r"//[^\n]*", "", code)
    tokens = re.findall(r'b?"[^"]*"|b?\'.\'|\w+|[^\s\w]', code)
    kept = {"if", "else", "match", "for", "while", "loop", "return", "let", "mut", "in", "as", "break"}
    return " ".join(t if t in kept or not re.match(r"\w|b?[\"']", t) else "_" for t in tokens if t != ",")


revision = sys.argv[1] if len(sys.argv) > 1 else "HEAD"
groups = {}
for path in git("ls-tree", "-r", "--name-only", revision, "crates").split():
    if not re.fullmatch(r"crates/\w+/src/\w+\.rt", path):
        continue
    lines = git("show", f"{revision}:{path}").split("\n")
    for number, line in enumerate(lines):
        found = re.match(r" *(?:pub(?:\(crate\))? )?(?:extern \"C\" )?fn (\w+)", line)
        one = shape(body(lines, number)) if found else ""
        if len(one.split()) >= LEAST:
            groups.setdefault(one, []).append(f"{path.split('/')[1]}::{found[1]}")
twins = sorted((g for g in groups.values() if len(g) > 1), key=len, reverse=True)
for group in twins:
    print(len(group), *group)
print(f"{len(twins)} groups, {sum(map(len, twins))} functions")
