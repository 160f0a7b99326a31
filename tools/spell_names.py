#!/usr/bin/env python3
"""Spells the names that this repository declares in specs/ and proofs/ as Rattle's library does: types and modules in camel case,
all else in snake case.

    tools/spell_names.py [FOLDER]        once, after the kit's own script of the port (the folder: a checkout; else this one)

Turned: whole words of .antt files that a file of specs/ or of lemmas declares, the same words in clauses of .rt files, in must-fail
edits and in the code spans of pages. Names of functions of src/, of C and of libraries stay, and so do strings.
A second run writes nothing more. Where two names would fall together it says so and writes nothing.
"""
import collections
import os
import re
import sys

# A name of capitals at its head that is a number and no type, and a type with a small head.
OTHERS = {
    'Unallocated': 'state_unallocated',
    'Unmarked': 'state_unmarked',
    'Marked': 'state_marked',
    'Running': 'phase_running',
    'Marking': 'phase_marking',
    'Releasing': 'phase_releasing',
    'chainStands': 'ChainStands',
    'servedBy': 'ServedBy',
}
WORD = re.compile(r'[^\s(){}.;,@"«»]+')
COMMENT = re.compile(r'(?m)(?:^|(?<=\s))--.*$')
TOP = re.compile(r'(?m)^(?:(?:pub|unfoldable|abbrev|opaque|private)\s+)*([^\s(){}.;,@"«»:]+)(?:\s*\{[^{}\n]*\})*\s+:\s')
# a record within a block of parameters, a ruleset, and what a file passes on under another name
WITHIN = re.compile(r'(?m)^([ \t]+)(?:pub\s+)?record\s+([^\s(){}:]+).*((?:\n\1[ \t]+.*)*)')
RULESET = re.compile(r'(?m)^[ \t]*(?:pub\s+)?ruleset\s+(\S+)\s*=')
PASSED_ON = re.compile(r'(?m)^pub use [^{\n]*\{([^}]*)\}')
# within a block of parameters: a name that is public, or whose equation follows
INNER = re.compile(r'(?m)^([ \t]+)((?:(?:pub|unfoldable|abbrev)\s+)*)([^\s(){}.;,@"«»:]+)(?:\s*\{[^{}\n]*\})*\s+:\s(?=(?:.*\n)(?:\1[ \t]+.*\n)*(?:\1unfolding.*\n)?\1\3\s)')
BLOCK = re.compile(r'(?m)^(?:pub\s+)?(record|data)\s+([^\s(){}:]+)(.*(?:\n(?:[ \t]+.*|\s*))*)')
MEMBER = re.compile(r'(?m)^[ \t]+(?:pub )?\|?\s*([^\s(){}:]+(?: [^\s(){}:]+)*)\s+:')
USE = re.compile(r'(?m)^\s*(?:ghost\s+)?use\s+([^\s;{]+?)\.?\{([^}]*)\}')
USE_ONE = re.compile(r'(?m)^\s*(?:ghost\s+)?use\s+([^\s;{]+)')
GHOST = re.compile(r'ghost\s+use\b[^;]*;')
DASHED = re.compile(r"(?<![^\s(){}.;,@«»])[\w'₀-₉]+(?:-[\w'₀-₉]+)+(?![^\s(){}.;,@«»])")
SPAN = re.compile(r'`[^`\n]+`')
HUMP = re.compile(r'(?<![\w.])[a-z]\w*[a-z0-9][A-Z]\w*')
KEYWORDS = {'use', 'mod', 'infix', 'infixl', 'infixr', 'open'}


def snake(name):
    if name in OTHERS:
        return OTHERS[name]
    words = re.sub(r'(?<=[a-z0-9])[A-Z]', lambda m: '_' + m[0].lower(), name) if not name[:1].isupper() else name
    words = re.sub(r"(?<=[\w'₀-₉])-(?=\w)", '_', words)
    return words.replace('′', "'")


def read(path):
    with open(path, encoding='utf-8') as f:
        return f.read()


def files(top, *endings):
    for folder, dirs, names in os.walk(top):
        dirs[:] = sorted(d for d in dirs if d not in ('out', '.git', 'target'))
        for name in sorted(names):
            if name.endswith(endings):
                yield os.path.join(folder, name)


def is_function(path, text):
    """A file of one function's proof: the names in it are the function's goals."""
    return '/proofs/' in path and os.path.basename(path) in ('Proof.antt', 'Answers.antt', 'Invariants.antt') or ' as tie' in text


def members(text):
    return {n for m in MEMBER.finditer(text) for n in m.group(1).split()}


def declared(text):
    text = COMMENT.sub('', text)
    found = {m.group(1) for m in TOP.finditer(text)}
    found |= {m.group(3) for m in INNER.finditer(text)} | set(RULESET.findall(text))
    for m in WITHIN.finditer(text):
        found |= {m.group(2)} | members(m.group(3))
    for m in PASSED_ON.finditer(text):
        found |= {n.split(' as ')[1] for n in m.group(1).split(',') if ' as ' in n}
    found = {n.strip() for n in found}
    for m in BLOCK.finditer(text):
        found.add(m.group(2))
        found |= members(m.group(3))
    return {n for n in found if n not in KEYWORDS}


def borrowed(text, ours):
    """The names that the file imports from libraries that aren't this repository's."""
    names = set()
    for m in USE.finditer(text):
        steps = m.group(1).split('.')
        if steps[0] == 'Rattle' and len(steps) > 1 and steps[1] in ours:
            continue
        for item in m.group(2).split(','):
            names |= set(item.replace(' as ', ' ').split())
    return names


def turn_words(text, table, keep, after_dot):
    def turn(m):
        word = m.group(0)
        if word in keep or word not in table:
            return word
        if m.start() and text[m.start() - 1] == '.' and word not in after_dot:
            return word
        return table[word]

    return WORD.sub(turn, text)


def turn_comment(text, table, keep, after_dot):
    """A comment's code spans, and in its prose the names that are no words."""

    def word(m):
        return table.get(m.group(0), m.group(0)) if m.group(0) not in keep and m.group(0) not in OTHERS else m.group(0)

    def span(m):
        return m.group(0)[0] + turn_words(m.group(0)[1:-1], table, keep, after_dot) + m.group(0)[-1]

    out, at = [], 0
    for m in SPAN.finditer(text):
        out += [HUMP.sub(word, text[at : m.start()]), span(m)]
        at = m.end()
    return ''.join(out) + HUMP.sub(word, text[at:])


def turn_antt(text, table, keep, after_dot):
    out, at = [], 0
    for m in re.finditer(r'"[^"\n]*"|(?m:(?:^|(?<=\s))--.*$)', text):
        turned = m.group(0) if m.group(0).startswith('"') else turn_comment(m.group(0), table, keep, after_dot)
        out += [turn_words(text[at : m.start()], table, keep, after_dot), turned]
        at = m.end()
    return ''.join(out) + turn_words(text[at:], table, keep, after_dot)


def turn_locals(text, keep):
    """In a file of lemmas: what is bound there, with its dash."""
    code = COMMENT.sub('', text)
    words = set(WORD.findall(code))
    bound = {m.group(0) for m in DASHED.finditer(code) if code[m.start() - 1 : m.start()] != '.'} - keep
    table = {w: w.replace('-', '_') for w in bound if w.replace('-', '_') not in words}
    return WORD.sub(lambda m: table.get(m.group(0), m.group(0)), text)


def clause_spans(text):
    """Where clauses and ghost items of a .rt file stand."""
    for m in GHOST.finditer(text):
        yield m.start(), m.end()
    for m in re.finditer(r'(?m)^\s*(?:requires|ensures)\b\*?[^{\n]*\{|\bghost\s+\w+\s*:\s*\{', text):
        depth, i = 1, m.end()
        while i < len(text) and depth:
            depth += {'{': 1, '}': -1}.get(text[i], 0)
            i += 1
        yield m.end(), i


def turn_rt(text, table, keep, after_dot):
    out, at = [], 0
    for start, end in sorted(clause_spans(text)):
        if start < at:
            continue
        out += [text[at:start], turn_words(text[start:end], table, keep, after_dot)]
        at = end
    text = ''.join(out) + text[at:]

    return re.sub(r'//[^\n]*', lambda m: turn_comment(m.group(0), table, keep, after_dot), text)


# What the kit's script turns in files of code and not in edits: a library's words and symbols, paths, and how a field is read.
PATHS = [
    (re.compile(r'Rattle·(\w+)·(?:specs|proofs)\.(specs|proofs)\.'), r'Rattle.\1.\2.'),
    (re.compile(r'Rattle·(\w+)'), r'Rattle.\1'),
    (re.compile(r'(?<![\w\'])_(∷|\+\+|&&|\|\||\+|-|\*|/|%|≡|×|⊎)_(?![\w\'])'), r'◌\1◌'),
    (re.compile(r'\bheadD\b'), 'head_d'),
    (re.compile(r'\bgetD\b'), 'get_or'),
    (re.compile('′'), "'"),
]
ATOM = r"[\w₀-₉'][\w₀-₉'.]*"
FIELD = r'[a-z0-9]\w*'


def closing(text, at):
    """Where the parenthesis that opens at `at` closes, or None."""
    depth = 0
    for i in range(at, len(text)):
        depth += {'(': 1, ')': -1}.get(text[i], 0)
        if not depth:
            return i
    return None


def tight(text):
    """Of a field's old reading, `f x .field`, the new one: `(f x).field`, and `x.field` of one word."""
    while True:
        m = re.search(r'(?<=[^\s(]) \.(?=' + FIELD + ')', text)
        if not m:
            return text
        at, end = m.start(), m.end()
        fields = re.match('(?:' + FIELD + r')(?: \.' + FIELD + ')*', text[end:])
        read = '.' + fields.group(0).replace(' .', '.')
        end += fields.end()
        # what the field is read of: back to the parenthesis that holds it, or to where the term begins
        depth, i = 0, at - 1
        while i >= 0:
            if text[i] == ')':
                depth += 1
            elif text[i] == '(':
                if not depth:
                    break
                depth -= 1
            elif not depth and re.match(r' (?:[=≡∷+&|↦,;:]|&&|then|else|if|in)(?: |$)', text[i:]):
                i += re.match(r' \S+', text[i:]).end()
                break
            i -= 1
        begin = i + 1
        while begin < at and text[begin] == ' ':
            begin += 1
        of = text[begin:at]
        whole = begin > 0 and text[begin - 1] == '(' and closing(text, begin - 1) == end
        if re.fullmatch(ATOM, of) or (of.startswith('(') and closing(of, 0) == len(of) - 1):
            new = of + read
        else:
            new = '(' + of + ')' + read
        if whole:
            text = text[: begin - 1] + new + text[end + 1 :]
        else:
            text = text[:begin] + new + text[end:]


def turn_edit(text, names):
    lines, code = [], False
    for line in text.split('\n'):
        kind, colon, rest = line.partition(': ')
        if kind == 'file':
            code = rest.endswith('.rt')
        if kind in ('shows', 'uses', 'unfolds') or (kind in ('old', 'new') and not code):
            for old, new in PATHS:
                rest = old.sub(new, rest)
            rest = WORD.sub(lambda m: OTHERS.get(m.group(0)) or by_page(m.group(0), names), rest)
            line = kind + colon + tight(rest)
        lines.append(line)
    return '\n'.join(lines)


def by_page(word, names):
    """A page or an edit may have a name as it was before the kit's script, too; what has neither dash nor hump may be the code's."""
    if '-' not in word and not re.search('[a-z0-9][A-Z]', word):
        return word
    if word in names:
        return names[word]
    name = snake(word)
    if name in names:
        return names[name] if '-' in word else name
    return name if name in names.values() else word


def turn_page(text, names):
    # what programs print and files of the text format
    plain = {'set-up', 'in-gc'}

    def span(m):
        parts = re.split(r"([\w'′₀-₉-]+)", m.group(0))
        return ''.join(w if w in plain else by_page(w, names) for w in parts)

    return SPAN.sub(span, text)


def main():
    root = os.path.abspath(sys.argv[1] if len(sys.argv) > 1 else os.path.join(os.path.dirname(os.path.abspath(__file__)), '..'))
    crates = os.path.join(root, 'crates')
    ours = set(os.listdir(crates))
    texts = {p: read(p) for p in files(crates, '.antt', '.rt')}
    names, fields, where = set(), set(), collections.defaultdict(set)
    for path, text in texts.items():
        if path.endswith('.antt') and not is_function(path, text):
            here = declared(text)
            names |= here
            for n in here:
                where[n].add(path)
            for m in BLOCK.finditer(COMMENT.sub('', text)):
                fields |= members(m.group(3))
            for m in WITHIN.finditer(COMMENT.sub('', text)):
                fields |= members(m.group(3))
    table = {n: snake(n) for n in names if snake(n) != n}
    # a lemma that would have its function's name gets `_lem`
    alike = collections.defaultdict(set)
    for n in names:
        alike[snake(n)].add(n)
    for new, group in alike.items():
        hump = [n for n in group if re.search('[a-z0-9][A-Z]', n)]
        dash = [n for n in group if '-' in n]
        if len(group) == 2 and (hump or dash):
            lemma = dash[0] if dash else (group - set(hump)).pop()
            table[lemma] = new + '_lem'
            print(f'lemma: {lemma} beside {(group - {lemma}).pop()} is {new}_lem')
        elif len(group) > 1:
            print(f'look: {sorted(group)}')
    # two names that would fall together
    bad = 0
    for old, new in sorted(table.items()):
        others = [n for n in names if n != old and table.get(n, n) == new]
        for other in others:
            shared = [p for p, t in texts.items() if p.endswith('.antt') and {old, other} <= set(WORD.findall(COMMENT.sub('', t)))]
            same_file = where[old] & where[other]
            if shared or same_file:
                print(f'together: {old} and {other} as {new}: {[os.path.relpath(p, root) for p in shared][:4]}')
                bad += 1
    for path, text in texts.items():
        words = set(WORD.findall(COMMENT.sub('', text))) if path.endswith('.antt') else set()
        keep = borrowed(text, ours)
        for old, new in table.items():
            if old in words and old not in keep and new in words and new not in names and not is_function(path, text):
                print(f'meets: {old} as {new} in {os.path.relpath(path, root)}')
                bad += 1
    if bad and '--force' not in sys.argv:
        print(f'{bad} names would fall together: nothing was written')
        return 1
    after_dot = fields
    changed = 0
    for path, text in texts.items():
        keep = borrowed(text, ours)
        new = (turn_antt if path.endswith('.antt') else turn_rt)(text, table, keep, after_dot)
        if path.endswith('.antt') and not is_function(path, text):
            new = turn_locals(new, keep)
        if new != text:
            changed += 1
            with open(path, 'w', encoding='utf-8') as f:
                f.write(new)
    # edits and pages
    new_names = {n: table.get(n, n) for n in names}
    new_names |= {n: n for n in new_names.values() if n not in new_names}
    for path in [*files(crates, '.edit'), *files(root, '.md')]:
        old = read(path)
        new = (turn_edit if path.endswith('.edit') else turn_page)(old, new_names)
        if new != old:
            changed += 1
            with open(path, 'w', encoding='utf-8') as f:
                f.write(new)
    print(f'{len(table)} names of {len(names)} turned, in {changed} files')
    return 0


if __name__ == '__main__':
    sys.exit(main())
