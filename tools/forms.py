#!/usr/bin/env python3
"""Lists the places of each point of docs/DESIGN-PASS.md in crates/*/src.

    python3 tools/forms.py            of the checkout
    python3 tools/forms.py COMMIT     of a commit
    python3 tools/forms.py --list ..  each place, and not only how many there are

A place is what the form of the text shows; whether it is one of the point is said in the page, by hand.
"""

import os
import re
import subprocess
import sys
from collections import defaultdict

NOTHING = {
    "Refused", "TooLong", "NoTrailer", "NoBody", "End", "NoSuchTrailer", "NoSuchMessage", "NotABundle", "NoKind",
    "NoReading", "NoLine", "MoreBytes", "Off", "No", "Bad", "Differs", "Named", "NotAMailbox",
}


def sources(commit):
    """The text of each file of crates/*/src, without its tests, by its name."""
    if commit:
        names = subprocess.run(["git", "ls-tree", "-r", "--name-only", commit, "crates"], capture_output=True, text=True, check=True).stdout
        read = lambda name: subprocess.run(["git", "show", f"{commit}:{name}"], capture_output=True, text=True, check=True).stdout
    else:
        names = subprocess.run(["git", "ls-files", "-co", "--exclude-standard", "crates"], capture_output=True, text=True, check=True).stdout
        read = lambda name: open(name, encoding="utf-8").read()
    wanted = [n for n in names.split("\n") if (commit or os.path.exists(n)) and re.fullmatch(r"crates/\w+/src/.*\.rt", n)]
    return {n: read(n).split("#[cfg(test)]")[0] for n in sorted(wanted)}


def closing(text, at):
    """The place behind the brace that closes the one at `at`."""
    depth = 0
    for m in re.compile(r"//[^\n]*|b?\"(?:\\.|[^\"\\])*\"|b?'(?:\\.|[^'\\])'|[{}]").finditer(text, at):
        depth += {"{": 1, "}": -1}.get(m.group(), 0)
        if depth == 0:
            return m.end()
    return len(text)


def functions(text):
    """Name, parameters, clauses and body of each function."""
    for m in re.finditer(r"fn (\w+)(?:<[^(]*>)?\(", text):
        depth, end = 1, m.end()
        while depth:
            depth += {"(": 1, ")": -1}.get(text[end], 0)
            end += 1
        clauses, at = [], end
        while True:
            brace = re.compile(r"[{;]").search(text, at)
            if not brace or brace.group() == ";":
                break
            word = re.search(r"(requires|ensures)(?:\s+\w+)?\s*$", text[at:brace.start()])
            stop = closing(text, brace.start())
            if not word:
                yield m.group(1), text[m.end():end - 1], clauses, text[brace.start():stop]
                break
            clauses.append((word.group(1), text[brace.start() + 1:stop - 1].strip()))
            at = stop


def shape(body):
    """A body with its names and numbers taken out, and how many lines it has."""
    names = {}
    plain = re.sub(r"b?\"[^\"]*\"|b?'[^']*'|\b\d[\d_]*\b", "0", re.sub(r"//[^\n]*", "", body))
    plain = re.sub(r"\b[A-Za-z_]\w*\b", lambda m: names.setdefault(m.group(), f"n{len(names)}"), plain)
    return re.sub(r"\s+", " ", plain), body.count("\n")


def places(files):
    found = defaultdict(list)
    twins, facts, together = defaultdict(list), defaultdict(set), defaultdict(set)
    for name, text in files.items():
        line = lambda at: text.count("\n", 0, at) + 1
        for m in re.finditer(r"\benum (\w+) \{", text):
            body = text[m.end():closing(text, m.end() - 1)]
            if NOTHING & set(re.findall(r"^    (\w+)", body, re.M)):
                found["1 enums with a variant for nothing or a refusal"].append(f"{name}:{line(m.start())} {m.group(1)}")
        for m in re.finditer(r"// .*(?:\b0 (?:and 0 )?where|\b64 where|empty where|1 where|0: none)", text):
            found["1 a number or an empty part for nothing"].append(f"{name}:{line(m.start())}")
        for m in re.finditer(r"^(?:pub )?const \w+: (?:usize|u32|u8) = \d{1,3};", text, re.M):
            if not re.search(r"RUN|WORD|BLOCK|READ|PASSED|LEN|WIDTH|MOST|NEAR|BYTES", m.group()):
                found["1 numbers for kinds or refusals"].append(f"{name}:{line(m.start())} {m.group()}")
        for m in re.finditer(r"^\s*(while|loop)\b.*", text, re.M):
            body = text[m.end():closing(text, text.index("{", m.start(1)))]
            how = "3 loops that count by one or two" if re.search(r"\b\w+ [+-]= [12];", body) else "3 other loops that are no for"
            found[how].append(f"{name}:{line(m.start(1))} {m.group().strip()}")
        for m in re.finditer(r"#\[derive\(Drop\)\]\s*(?:pub )?(?:struct|enum) (\w+)", text):
            found["4 types that derive Drop alone"].append(f"{name}:{line(m.start())} {m.group(1)}")
        for fn, params, clauses, body in functions(text):
            if re.fullmatch(r"(\w+_number|number_of|kind_of|reading_of|flag_number|bit_of|print_(kind|verdict|ending|fault|field|answer))", fn):
                found["4 conversions and printing by a function"].append(f"{name} {fn}")
            if re.fullmatch(r"equals|starts_with|to_ascii_lowercase|eq_ignore_ascii_case|is_ascii_whitespace|is_(with)?in|minus|before_it|copy_\w+", fn):
                found["4 what std has by a function"].append(f"{name} {fn}")
            if re.search(r"\bmatch (answer|kind|number)\b|\b\w+: bool\b", "match " + body + params):
                if re.search(r"match answer \{\s*0 =>|: bool", body + params):
                    found["7 switches by a number or a flag"].append(f"{name} {fn}")
            form, lines = shape(body)
            if lines > 3:
                twins[form].append(f"{name} {fn}")
            for word, fact in clauses:
                if word == "requires":
                    for part in re.split(r" × ", fact.strip("() ")):
                        facts[part.strip("() ")].add(f"{name} {fn}")
            pairs = re.findall(r"(\w+): ([^,]+)", params)
            for one, two in zip(pairs, pairs[1:]):
                together[f"{one[0]}: {one[1].strip()}, {two[0]}: {two[1].strip()}"].add(f"{name} {fn}")
        for m in re.finditer(r"let mut \w+ = (?:\w*buffer|room)\(\)|\[0(?:u8)?; \d+\]", text):
            found["6 fixed buffers"].append(f"{name}:{line(m.start())} {m.group()}")
        for m in re.finditer(r"\branges: &\[usize\]", text):
            found["6 pairs in one list"].append(f"{name}:{line(m.start())}")
        for m in re.finditer(r"^\s*let (\w+) = \w+\.\1;|^\s*let \w+ = \w+\.\w+;", text, re.M):
            found["4 copies of a field into a name"].append(f"{name}:{line(m.start())}")
    for form, where in twins.items():
        if len(where) > 1:
            found["2 functions of one form"].append(" = ".join(where))
    for fact, where in facts.items():
        if len(where) > 2:
            found["5 facts in three requires or more"].append(f"{fact}: {len(where)}")
    for pair, where in together.items():
        if len(where) > 2:
            found["5 parameters that stand together three times or more"].append(f"{pair}: {len(where)}")
    return found


def main():
    args = [a for a in sys.argv[1:] if a != "--list"]
    found = places(sources(args[0] if args else None))
    for point in sorted(found):
        print(f"{len(found[point]):4}  {point}")
        if "--list" in sys.argv:
            for place in found[point]:
                print(f"          {place}")


if __name__ == "__main__":
    main()
