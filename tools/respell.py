#!/usr/bin/env python3
"""Brings the repository's own definitions and lemmas to the spelling of today's Rattle (CONTRACT_STYLE.md, "Names").

    tools/respell.py            renames in every file, and says which names fall together
    tools/respell.py --dry      says what it would rename
    tools/respell.py --check    says which imports of this repository's modules name nothing, and which names are still in the old spelling

port.py turned the names of the library, and only some of the repository's. What this turns are the names that stand in crates/*/specs and
crates/*/proofs outside the answers (Proof.antt):

- a function, a constructor and a field are in snake case: `blankByte` is `blank_byte`, `isLF` is `is_lf`, `not-empty` is `not_empty`;
- a lemma has `_` for a dash, but where the dash joins two names, each of a definition of specs/ that the lemma's file sees or a word
  of std (WORDS): `lines-only` is `lines_only`, and `lines-append` stays. Words are grouped to the longest name: `lineStart-append` is
  `line_start-append`. A fact keeps its capitals in a lemma's name.
- types, facts, modules and constants such as LF keep theirs.

A use is turned where the name is declared or imported in its file: no name is turned by its text alone. What Rattle makes of the source, and
what stands behind a point but for the fields of specs/, stays. Names that would fall together are in LEM and TABLE, each with another name.
"""
import os
import re
import subprocess
import sys
from collections import defaultdict

# Words of std that a dash joins.
WORDS = set('append length take drop map join head tail filter reverse set paste nil cons'.split())

# (crate, specs or proofs, module): {old name: new name}, where the rule's name falls together with another.
# A lemma that would have its function's name gets `_lem` (CONTRACT_STYLE.md, "Names", 3); here a lemma is meant where a definition of the
# name, in its new spelling, is seen in a file that sees the lemma too. What is no lemma has another word.
LEM = '''
bundle.proofs.Bundle message-at
adding.proofs.Writing end-bytes
appending.proofs.ForCode has_block
appending.proofs.ReadBack is-end
appending.proofs.Written new-end
appending.proofs.Written new_line
block.proofs.Step part-lines
body.proofs.Before found_before
body.proofs.Before step-before
body.proofs.Calls looked-up
closing.proofs.Answers note-said
closing.proofs.Closing note-of
closing.proofs.Closing state-word
closing.proofs.Place part_in
commit.proofs.Judged turned-verdict
commit.proofs.Shapes on-text
commit.proofs.Shapes text-of
foot.proofs.Tells foot-records
foot.proofs.Tells foot-values
header.proofs.Laws name-byte
judge.proofs.Cuts empty-line
judge.proofs.Cuts named-line
judge.proofs.Cuts spaced-line
judge.proofs.Turns count_at
mailbox.proofs.Accepts quote-text
paragraph.proofs.Scanned drop-last
paragraph.proofs.Scanned end-above
paragraph.proofs.Scanned start-in
paragraph.proofs.Scanned text-end
pieces.proofs.Laws atom-end
record.proofs.Read with_value
rules.proofs.Blocks push-text
rules.proofs.Manual git-generated
rules.proofs.Manual other-lines
rules.proofs.Manual trailer-count
rules.proofs.Messages message-trailers
rules.proofs.Paragraph block_start
rules.proofs.SummaryTwice by-lfs
rules.proofs.Trailer trailer-line
rules.proofs.White form-at
summary.proofs.InOne goes_of
summary.proofs.InOne in_one
white.proofs.Forms low-alone
white.proofs.Scan form-end
'''
TABLE = {
    # beside addedBelow, of which it is the lines in this message
    ('appending', 'proofs', 'ReadBack'): {'added-below': 'below_given'},
    # fields beside the definitions noNeedlessZero and rawValueAt
    ('closing', 'proofs', 'Contents'): {'no-needless-zero': 'without_needless_zero'},
    ('rules', 'proofs', 'Walk'): {'raw-value-at': 'raw_at'},
    # a constructor beside the reader's state quoteTaken
    ('mailbox', 'proofs', 'Derives'): {'quote-taken': 'in_quote_taken'},
}
for _module, _name in (row.split() for row in LEM.split('\n') if row):
    _module = tuple(_module.split('.', 2))
    TABLE.setdefault(_module, {})[_name] = _name.replace('-', '_') + '_lem'

# In comments, a word of English and no name: a field of crates/appending.
ENGLISH = {'non-blank'}

SEPARATORS = ' \t\n(){}[],;.@"«»\\'
TOKEN = re.compile(r'"(?:[^"\\]|\\.)*"|[^' + re.escape(SEPARATORS) + r']+|.', re.S)
MODIFIERS = {'abbrev', 'unfoldable', 'opaque', 'pub', 'data', 'record'}


def tracked(*ends):
    out = subprocess.check_output(['git', 'ls-files'], text=True).split('\n')
    return [f for f in out if f.endswith(ends) and os.path.isfile(f)]


def tokens(text):
    """The tokens of an antt text: (text, kind), where kind is name, comment, string or mark."""
    out, pos = [], 0
    while pos < len(text):
        m = re.compile(r'--(?=[ \n]|-|$)[^\n]*').match(text, pos)
        if m and (pos == 0 or text[pos - 1] in ' \t\n({['):
            out.append((m[0], 'comment'))
            pos = m.end()
            continue
        m = TOKEN.match(text, pos)
        t = m[0]
        out.append((t, 'string' if t[0] == '"' and len(t) > 1 else 'mark' if t in SEPARATORS else 'name'))
        pos = m.end()
    return out


def is_answer(file):
    return os.path.basename(file) in ('Proof.antt', 'Invariants.antt') or os.path.basename(file) == 'Answers.antt' and file.count('/') > 3


def module_of(file):
    """crates/rules/specs/Lines.antt is ('rules', 'specs', 'Lines')."""
    part = file[:-5].split('/')
    return part[1], part[2], '.'.join(part[3:])


def declared(text, specs):
    """What an antt text declares: [(name, kind)], kind def, lemma, type, ctor, field or local."""
    out = []
    base = [0]  # the indents at which a module's declarations stand
    head = False  # in the head of a module
    body = None  # (indent, ctor or field) of a data or record
    for raw in text.split('\n'):
        line = re.sub(r'(^|\s)--(\s.*|-.*|$)', '', raw).rstrip()
        if not line.strip():
            continue
        indent = len(line) - len(line.lstrip())
        line = line.strip()
        if not head:
            while len(base) > 1 and indent < base[-1]:
                base.pop()
            if indent == base[-1] and line.startswith('module '):
                head = True
        if head:
            body = None
            if re.search(r'(^| )where$', line):
                head = False
                base.append(base[-1] + 2)
            continue
        if line.startswith(('use ', 'pub mod ', 'infix', 'unfolding ')):
            continue
        if body and indent <= body[0]:
            body = None
        words = line.split()
        mods = []
        while words and words[0] in MODIFIERS:
            mods.append(words.pop(0))
        rest = line
        for w in mods:
            rest = rest[len(w):].lstrip()
        if not words:
            continue
        name = words[0]
        # behind a declared name come only binders in brackets and a colon
        depth, is_declaration, at = 0, False, len(name)
        while at < len(rest):
            c = rest[at]
            if c in '({':
                depth += 1
            elif c in ')}':
                depth -= 1
            elif depth == 0 and c != ' ':
                is_declaration = c == ':' and rest[at + 1:at + 2] in ('', ' ')
                break
            at += 1
        if at >= len(rest) and depth > 0 and mods and ('record' in mods or 'data' in mods):
            is_declaration = True
        several = re.match(r"((?:[^\s(){}:.,;]+ )+):(?: |$)", rest)
        if body and indent == body[0] + 2 and several and not mods:
            out += [(one, body[1]) for one in several[1].split()]
            continue
        if any(c in SEPARATORS for c in name) or not is_declaration:
            continue
        if 'data' in mods or 'record' in mods:
            out.append((name, 'type'))
            body = (indent, 'ctor' if 'data' in mods else 'field')
        elif body and indent == body[0] + 2:
            out.append((name, body[1]))
        elif body and body[1] == 'field' and indent > body[0] + 2:
            continue
        elif indent == base[-1]:
            out.append((name, 'def' if specs or 'abbrev' in mods or 'unfoldable' in mods else 'lemma'))
        else:
            out.append((name, 'local'))
    return out


USE = re.compile(r'^[ \t]*(?:ghost |pub )*use (Rattle[.·]\S*?)\.\{([^}]*)\};?', re.M)
USE_AS = re.compile(r'^[ \t]*(?:ghost )?use (Rattle\.\S+) as ([^\s;]+)', re.M)


def path_of(path):
    part = path.split('.')
    return (part[1], part[2], '.'.join(part[3:])) if len(part) > 3 else None


def imports(text):
    """[(module, name, name here)] of this repository's modules and others."""
    out = []
    for m in USE.finditer(text):
        module = path_of(m[1])
        for item in re.sub(r'--[^\n]*', '', m[2]).split(','):
            item = item.split()
            if item:
                out.append((module, item[0], item[2] if len(item) == 3 and item[1] == 'as' else item[0]))
    return out


def snake(name):
    if not re.search(r'[a-z0-9][A-Z]', name) or name[0].isupper():
        return name
    name = re.sub(r'([a-z0-9])([A-Z])', r'\1_\2', name)
    name = re.sub(r'([A-Z]+)([A-Z][a-z])', r'\1_\2', name)
    return name.lower()


def lemma_name(name, seen):
    """`seen`: the definitions that the lemma's file sees, in the new spelling."""
    parts = []
    for part in name.split('-'):
        parts += [snake(part)]
    groups, i = [], 0
    while i < len(parts):
        for j in range(len(parts), i, -1):
            whole = '_'.join(parts[i:j])
            if j == i + 1 or whole in seen:
                groups.append((whole, whole in seen or whole in WORDS))
                break
        i = j
    out = groups[0][0]
    for (_, a), (b, c) in zip(groups, groups[1:]):
        out += ('-' if a and c else '_') + b
    return out


class Tree:
    def __init__(self):
        self.text = {f: open(f, encoding='utf-8').read() for f in tracked('.antt', '.rt', '.edit', '.md')}
        self.files = {module_of(f): f for f in self.text if f.endswith('.antt') and f.startswith('crates/')}
        self.declared = {m: declared(self.text[f], m[1] == 'specs') for m, f in self.files.items()}
        self.new = {}  # module: {old: new}
        for rooms in ('specs', 'proofs'):
            for m in self.files:
                if m[1] == rooms and not is_answer(self.files[m]):
                    self.new[m] = self.names(m)
        self.functions = set()
        for f, text in self.text.items():
            if f.endswith('.rt'):
                self.functions |= set(re.findall(r'\bfn (\w+)', text))
        self.fields = {}
        for m, names in self.declared.items():
            for name, kind in names:
                if kind == 'field' and m in self.new and self.new[m].get(name, name) != name:
                    self.fields[name] = self.new[m][name]

    def is_def(self, module, name):
        return module in self.declared and module[1] == 'specs' and any(n == name and k in ('def', 'type') for n, k in self.declared[module])

    def names(self, m):
        out = {}
        text = self.text[self.files[m]]
        seen = set()
        if m[1] == 'proofs':
            for module, name, here in imports(text):
                if self.is_def(module, name):
                    seen.add(self.new.get(module, {}).get(name, name))
        seen |= {snake(n) for n, k in self.declared[m] if k in ('def', 'type') and '-' not in n}
        for name, kind in self.declared[m]:
            # a definition that has the name by now is no lemma: a second run changes nothing
            if name in TABLE.get(m, {}) and not (kind == 'def' and TABLE[m][name].endswith('_lem')):
                out[name] = TABLE[m][name]
                continue
            if '◌' in name or kind == 'type' or not re.search(r'[a-z0-9][A-Z]|.-.', name):
                continue
            if kind == 'lemma' or kind == 'local' and '-' in name:
                new = lemma_name(name, seen)
            elif name[0].isupper():
                new = name
            else:
                new = snake(name.replace('-', '_'))
            if new != name:
                out[name] = new
        return out

    def map_of(self, file):
        """Old name here: new name here, of what the file declares or imports."""
        out = {}
        text = self.text[file]
        if file.endswith('.antt'):
            out.update(self.new.get(module_of(file), {}))
        for module, name, here in imports(text):
            if name in self.new.get(module, {}):
                new = self.new[module][name]
                if here == name:
                    if here in out and out[here] != new:
                        print(f'{file}: {name} is imported and declared, {new} and {out[here]}')
                    out[here] = new
        return out

    def turn_antt(self, file):
        text = self.text[file]
        names = self.map_of(file)
        aliases = {a: path_of(p) for p, a in USE_AS.findall(text)}
        own = {n for n, k in self.declared[module_of(file)] if k == 'field'}
        # an `as`: the name before it is the module's
        renamed = {}
        for module, name, here in imports(text):
            if here != name and name in self.new.get(module, {}):
                renamed[name] = self.new[module][name]
        toks = tokens(text)
        out = []
        for i, (t, kind) in enumerate(toks):
            if kind == 'comment':
                out.append(self.turn_comment(t, names, module_of(file)))
                continue
            if kind != 'name':
                out.append(t)
                continue
            after_dot = i > 0 and toks[i - 1][0] == '.' and i > 1 and toks[i - 2][0] not in (' ', '\n', '\t')
            loose_dot = i > 0 and toks[i - 1][0] == '.' and not after_dot and toks[i + 1][0] != '{'
            if after_dot or loose_dot:
                owner = toks[i - 2][0]
                if owner in aliases and not (i > 3 and toks[i - 3][0] == '.'):
                    t = self.new.get(aliases[owner], {}).get(t, t)
                elif t in self.fields and not self.is_generated(file, toks, i):
                    t = self.fields[t]
            elif t in names:
                t = names[t]
            elif t in self.fields and self.in_record(toks, i):
                t = self.fields[t]
            elif t in renamed and i + 2 < len(toks) and toks[i + 2][0] == 'as':
                t = renamed[t]
            out.append(t)
        return ''.join(out)

    def is_generated(self, file, toks, i):
        """Whether a field is the step of a proof that Rattle makes of a call: a function's name, with what the call gave."""
        return toks[i][0].replace('-', '_') in self.functions and ''.join(t for t, _ in toks[i + 1:i + 3]) in ('.result', '.ensures', '.args', '.before', '.new', '.requires')

    def in_record(self, toks, i):
        """Whether a field of a `record { .. }` is named here."""
        j = i + 1
        while j < len(toks) and toks[j][0].isspace():
            j += 1
        if j >= len(toks) or toks[j][0] != '=':
            return False
        j = i - 1
        while j >= 0 and toks[j][0].isspace():
            j -= 1
        return toks[j][0] in ('{', ';')

    def resolve(self, word, module=None):
        """The new spelling of a name in a text that imports nothing: of `module` (crate, room, file, each or the last ones None), or the only one."""
        if word in ENGLISH or not re.search(r'[a-z0-9][A-Z]|[^-]-[^-]', word) or word[0].isupper() and '-' not in word:
            return word
        for parts in (3, 2, 1) if module else ():
            if None in module[:parts]:
                continue
            new = {n for m, n in self.every.get(word, ()) if m[:parts] == module[:parts]}
            if len(new) == 1:
                return new.pop()
        new = {n for _, n in self.every.get(word, ())}
        if len(new) == 1:
            return new.pop()
        if len(new) > 1:
            self.unclear.append(f'{word}: {" ".join(sorted(new))} ({module})')
            return word
        # what port.py has renamed
        for spelt in (snake(word), word.replace('-', '_')):
            new = {n for o in (spelt, spelt + '_lem') for _, n in self.every.get(o, ())}
            if spelt != word and len(new) == 1:
                return new.pop()
        return word

    def turn_comment(self, text, names, module=None):
        named = re.search(r'\b([a-z]+/)?(proofs|specs)/([A-Z]\w*)', text)

        def one(m):
            word = m[0]
            if word in names and re.search(r'[a-z0-9][A-Z]|[^-]-[^-]', word) and word not in ENGLISH:
                return names[word]
            where = module
            if named and module and word not in names:
                where = (named[1][:-1] if named[1] else module[0], named[2], named[3])
            return self.resolve(word, where)
        return re.sub(r"(?<![\w/.-])[A-Za-z][\w']*(?:-[\w']+)*(?![\w-])", one, text)

    def turn_rt(self, file):
        names = self.map_of(file)
        out = []
        for line in self.text[file].split('\n'):
            m = re.match(r'((?:[^"/]|"(?:[^"\\]|\\.)*"|/(?!/))*)(//.*)?$', line)
            code, comment = (m[1], m[2] or '') if m else (line, '')

            def one(n):
                word = n[0]
                if word[0] == '"' or word in names:
                    return names.get(word, word)
                return re.sub(r"[\w']+", lambda w: names.get(w[0], w[0]), word) if '-' in word else word
            code = re.sub(r'"(?:[^"\\]|\\.)*"|(?<![.\w])[A-Za-z][\w\'-]*', one, code)
            out.append(code + self.turn_comment(comment, names, (file.split('/')[1], None, None)))
        return '\n'.join(out)

    def turn_code(self, text, names):
        """A piece of antt or of a clause, by the names of its file, and by those that are one over the repository."""
        out = []
        toks = tokens(text)
        for i, (t, kind) in enumerate(toks):
            if kind == 'name' and not (i and toks[i - 1][0] == '.' and toks[i - 2][0] not in ' ({'):
                t = names.get(t) or self.fields.get(t) or (self.resolve(t) if re.match(r'[a-z]\w*(?:[A-Z]|-[a-z])', t) else t)
            out.append(t)
        return ''.join(out)

    def turn_edit(self, file):
        crate = file.split('/')[1]
        names, out = {}, []
        for line in self.text[file].split('\n'):
            if line.startswith('file: '):
                of = f'crates/{crate}/{line[6:]}'
                names = self.map_of(of) if of in self.text else {}
                antt = of.endswith('.antt')
            elif line.startswith(('old: ', 'new: ')):
                line = line[:5] + self.turn_code(line[5:], names)
                # a projection is written tight today: `f x (g y) .line` is `(f x (g y)).line`, as port.py has it in specs/
                call = r'\w+(?: (?:\w+|\((?:[^()]|\([^()]*\))*\)))+'
                if antt:
                    line = re.sub(rf'\(({call}) (\.(?:line|at|start|end))\)', r'(\1)\2', line)
                    line = re.sub(rf'(?<![\w ] )({call}) (?=\.(?:line|at|start|end)\b)', r'(\1)', line)
                line = re.sub(r'Rattle·(\w+)[·.]specs(?:\.specs)?\.', r'Rattle.\1.specs.', line)
            elif line.startswith('#'):
                line = self.turn_comment(line, {}, (crate, None, None))
            out.append(line)
        return '\n'.join(out)

    def turn_page(self, file):
        out, room, fence, names = [], (None, None), None, {}
        crate = file.split('/')[1] if file.startswith('crates/') else None
        for line in self.text[file].split('\n'):
            if line.startswith('```'):
                word = line[3:].split()
                fence = None if fence is not None else word
                of = word[1] if fence and len(word) == 2 and word[0] == 'from' else None
                names = self.map_of(of) if of in self.text else {}
            elif fence is not None:
                if fence[:1] == ['from']:
                    line = self.turn_code(line, names)
            else:
                if line.startswith('## '):
                    m = re.search(r'\(([a-z]+)(?:/([a-z]+))?', line)
                    room = (m[1], m[2]) if m else (None, None)
                cells = re.split(r' *\| *', line) if line.startswith('|') else []
                modules = [c for c in cells if re.fullmatch(r'[A-Z]\w*', c)]

                def one(m):
                    behind = re.match(r',? \(?(?:crates/)?([a-z]+)/(proofs|specs)/(\w+)', line[m.end():])
                    if behind:
                        where = (behind[1], behind[2], behind[3])
                    elif re.match(r'[^`]*\b([a-z]+)/(proofs|specs)/([A-Z]\w*)', line[m.end():]) and not cells:
                        b = re.match(r'[^`]*\b([a-z]+)/(proofs|specs)/([A-Z]\w*)', line[m.end():])
                        where = (b[1], b[2], b[3])
                    else:
                        where = (room[0] or crate, room[1], modules[-1] if modules else None)
                    return '`' + re.sub(r"(?<![\w/.:-])[A-Za-z][\w']*(?:-[\w']+)*(?![\w-])", lambda w: self.resolve(w[0], where), m[1]) + '`'
                line = re.sub(r'`([^`]+)`', one, line)
            out.append(line)
        return '\n'.join(out)

    def set_every(self):
        self.every = defaultdict(set)
        self.unclear = []
        for m, names in self.declared.items():
            if m in self.new:
                for name, kind in names:
                    if kind != 'local':
                        self.every[name].add((m, self.new[m].get(name, name)))

    def unresolved(self):
        """Imports of this repository's modules that name nothing there."""
        out = []
        made = re.compile(r'(?:^|\.)(?:declared|Goals|Tie|Reads|Lts|Statement|Kinds)(?:\.|$)')
        crates = {m[0] for m in self.files}
        for f, text in sorted(self.text.items()):
            if f.endswith(('.antt', '.rt')) and f.startswith('crates/'):
                for module, name, _ in imports(text):
                    if not module or module[0] not in crates or made.search(module[2]):
                        continue
                    if module not in self.declared:
                        if not re.match(r'[a-z+]', module[2].split('.')[-1]) and not re.search(r'(^|\.)[a-z+]', module[2]):
                            out.append(f'{f}: no module {".".join(module)}')
                    elif name not in {n for n, _ in self.declared[module]}:
                        out.append(f'{f}: {".".join(module)} has no {name}')
        return out

    def together(self):
        """Where names that are not one have one spelling: within a module, and within a file that sees both."""
        out = []
        for f, text in sorted(self.text.items()):
            if not f.startswith('crates/') or not f.endswith('.antt'):
                continue
            names = self.map_of(f)
            toks = tokens(text)
            have = {t for i, (t, k) in enumerate(toks) if k == 'name' and not (i and toks[i - 1][0] == '.') and not self.in_record(toks, i)}
            by = defaultdict(set)
            for old, new in names.items():
                by[new].add(old)
            for new, old in by.items():
                if len(old) > 1 or new in have and new not in names:
                    out.append(f'{f}: {new} of {" ".join(sorted(old))}{" is there" if new in have else ""}')
        return out


def main():
    os.chdir(os.path.join(os.path.dirname(os.path.abspath(__file__)), '..'))
    tree = Tree()
    tree.set_every()
    if '--check' in sys.argv:
        wrong = tree.unresolved()
        left = [f'{".".join(m)}: {o} is to be {n}' for m in sorted(tree.new) for o, n in tree.new[m].items() if o not in TABLE.get(m, ())]
        print('\n'.join(wrong + left + [f'{len(wrong)} imports name nothing; {len(left)} names in the old spelling']))
        return 0
    for line in tree.together():
        print('together:', line)
    if '--dry' in sys.argv:
        for m in sorted(tree.new):
            for old, new in tree.new[m].items():
                print('.'.join(m), old, new)
        return 0
    turned = {}
    for f in tree.text:
        if f.endswith('.antt') and f.startswith('crates/'):
            turned[f] = tree.turn_antt(f)
        elif f.endswith('.rt') and f.startswith('crates/'):
            turned[f] = tree.turn_rt(f)
        elif f.endswith('.edit'):
            turned[f] = tree.turn_edit(f)
        elif f.endswith('.md'):
            turned[f] = tree.turn_page(f)
    count = 0
    for f, text in turned.items():
        if text != tree.text[f]:
            count += 1
            with open(f, 'w', encoding='utf-8') as out:
                out.write(text)
    for line in sorted(set(tree.unclear)):
        print('unclear:', line)
    print(f'{count} files')
    return 0


if __name__ == '__main__':
    sys.exit(main())
