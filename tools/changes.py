#!/usr/bin/env python3
"""Prints what the design pass changed, old and new side by side, as the last part of docs/DESIGN-PASS.md.

    python3 tools/changes.py COMMIT

Of each crate: the public types and functions with their clauses, from crates/*/src; the public definitions and theorems of specs/; and the theorems of
proofs/ that README.md or a page of docs/ names.
"""

import os
import re
import subprocess
import sys
from collections import defaultdict

from forms import closing


def git(*args):
    return subprocess.run(["git", *args], capture_output=True, text=True, check=True).stdout


def tree(commit):
    """The text of each file of crates/ that can hold a promise, by its name."""
    if commit:
        names = git("ls-tree", "-r", "--name-only", commit, "crates").split("\n")
        read = lambda name: git("show", f"{commit}:{name}")
    else:
        names = git("ls-files", "-co", "--exclude-standard", "crates").split("\n")
        read = lambda name: open(name, encoding="utf-8").read()
    wanted = [n for n in names if (commit or os.path.exists(n)) and re.fullmatch(r"crates/\w+/(src/.*\.rt|specs/[^/]+\.antt|proofs/[^/]+\.antt)", n)]
    return {n: read(n) for n in wanted}


def plain(text):
    return re.sub(r"\s+", " ", text).strip().replace(", }", " }").replace(",)", ")").replace(", )", ")").replace("( ", "(")


def code(text):
    """The public types and functions of a file, each by its name."""
    text = re.sub(r"(?m)^\s*//.*\n", "", text.split("#[cfg(test)]")[0])
    found = {}
    for m in re.finditer(r"(?m)^(?:#\[derive\(([^)]*)\)\]\n)?pub (?:struct|enum|trait) (\w+)[^{;]*([{;])", text):
        end = m.end() if m.group(3) == ";" else closing(text, m.end() - 1)
        found["type " + m.group(2)] = plain(re.sub(r"#\[tactic[^\]]*\]\)?\]?", "", text[m.start():end]))
    for m in re.finditer(r"(?m)^impl(?:<[^>]*>)? ((?:Try)?From<\w+>) for (\w+) \{", text):
        head = text[m.start():closing(text, m.end() - 1)]
        gives = re.search(r"ghost \w*from_gives = \{[^\n]*", head)
        found[f"impl {m.group(1)} for {m.group(2)}"] = plain(f"impl {m.group(1)} for {m.group(2)} {{ {gives.group() if gives else ''} .. }}")
    for m in re.finditer(r"(?m)^( *)(?:#\[unsafe\(no_mangle\)\]\n)?pub (?:extern \"C\" )?fn (\w+)", text):
        at = m.end()
        while True:
            brace = re.compile(r"[{;]").search(text, at)
            if re.search(r"(requires|ensures)(?:\s+\w+)?\s*$", text[at:brace.start()]):
                at = closing(text, brace.start())
            else:
                break
        owner = ""
        if m.group(1):
            owners = re.findall(r"(?m)^impl(?:<[^>]*>)? ([^{]+?)(?:<[^>]*>)? \{", text[:m.start()])
            owner = owners[-1] + "::" if owners else ""
        found[f"fn {owner}{m.group(2)}"] = plain(text[m.start():brace.start()])
    return found


def logic(text):
    """The public declarations of a file of specs/ or proofs/, each by its name: of a theorem its statement, of a definition all."""
    found = {}
    blocks = re.split(r"\n(?=\S)", "\n".join(l for l in text.split("\n") if not l.lstrip().startswith("--")))
    for i, block in enumerate(blocks):
        m = re.match(r"(?:(abbrev|unfoldable) )?pub (?:(data|record|opaque) )?([^\s:({]+)", block)
        if not m or block.startswith("pub mod") or block.startswith("pub use"):
            continue
        kind, form, name = m.groups()
        rest = []
        if kind:
            for later in blocks[i + 1:]:
                if re.match(re.escape(name) + r"(\s|$)", later) or later.startswith("unfolding"):
                    rest.append(later)
                else:
                    break
        found[("definition " if kind or form else "theorem ") + name] = plain("\n".join([block] + rest))
    return found


def named():
    pages = git("ls-files", "README.md", "docs/*.md", "docs/notes/*.md").split()
    text = "".join(open(p, encoding="utf-8").read() for p in pages if "PORT" not in p and "DESIGN-PASS" not in p)
    return set(re.findall(r"`([\w-]+)`", text))


def main():
    old, new, names = tree(sys.argv[1]), tree(None), named()
    parts = defaultdict(dict)
    for side, files in (0, old), (1, new):
        for name, text in files.items():
            crate, kind = name.split("/")[1:3]
            for what, says in (code(text) if kind == "src" else logic(text)).items():
                if kind == "proofs" and (what.startswith("definition") or what.split()[1] not in names):
                    continue
                parts[crate].setdefault(what, [{}, {}])[side][name.split("/", 2)[2]] = says
    for crate in sorted(parts):
        lines = []
        for what in sorted(parts[crate]):
            one, two = parts[crate][what]
            before, after = sorted(set(one.values()) - set(two.values())), sorted(set(two.values()) - set(one.values()))
            if before or after:
                where = ", ".join(sorted(set(one) | set(two)))
                both = [f"    - {b}" for b in before or ["(none)"]] + [f"    + {a}" for a in after or ["(none)"]]
                lines.append(f"**{what}** ({where})\n\n" + "\n".join(both) + "\n")
        if lines:
            print(f"### {crate}\n\n" + "\n".join(lines))


main()
