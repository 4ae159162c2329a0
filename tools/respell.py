#!/usr/bin/env python3
"""Spells the repository's own definitions and lemmas as today's Rattle does: words in snake case, facts and types as they were.

usage: python3 tools/respell.py [--dry]    at the top of the repository, once, right after port.py

Names in camel case (`roundTo`) become snake case (`round_to`). A dash in a name becomes `_`, but stays between two names that the
lemma's own statement cites (`length-table`). Functions of src/, exported names, strings and the names of files stay. Names that would
fall together in a file are printed and stay apart only if TOLD below says how.
"""
import re, sys, glob, collections

DRY = '--dry' in sys.argv
IDENT = re.compile(r"[A-Za-z_][\w'≢≡≤ℕℤ₂]*(?:-(?:[\w'≢≡≤ℕℤ₂]+))*")
DEF = re.compile(r"^\s*(?:(?:abbrev|unfoldable)\s+)?(?:pub\s+)?((?:[A-Za-z_][\w'-]*\s+)*[A-Za-z_][\w'-]*)\s*:(?=\s|$)(.*)")
# Names that the rule alone would make equal to another in the same file, or that have a better form.
TOLD = {
    'byte-of': 'byte_of_lem', 'number-of': 'number_of_lem', 'root-of': 'root_of_lem', 'whole-root': 'whole_root_lem',
    'code-count': 'code_count_lem', 'memory-count': 'memory_count_lem', 'wrong-file': 'wrong_file_lem', 'is-bad': 'is_bad_lem',
    'is-compare': 'is_compare_lem', 'or-all': 'or_all_lem', 'value-from': 'value_from_lem', 'saved-size': 'saved_size_lem',
    'moved-size': 'moved_size_lem',
}
TOLD_IN = {
    'crates/forms/proofs/Apart.antt': {'version_of': 'version_of_lem'},
    'crates/evex/proofs/Order.antt': {'no_bytes': 'no_bytes_lem'},
    'crates/evex/proofs/decode/Proof.antt': {'no_bytes': 'no_bytes_lem'},
}

def antt_files():
    return sorted(glob.glob('crates/*/specs/**/*.antt', recursive=True) + glob.glob('crates/*/proofs/**/*.antt', recursive=True))

def code_of(line):
    """The line without its comment."""
    at = line.find('--')
    while at > 0 and line[at - 1] not in ' \t':
        at = line.find('--', at + 2)
    return line if at < 0 else line[:at]

def snake(word):
    if not re.match(r'[a-z]', word):
        return word
    if word == 'getD':
        return 'get_or'
    word = re.sub(r'([a-z0-9])([A-Z]+)(?=[A-Z][a-z])', r'\1_\2_', word)
    return re.sub(r'([a-z0-9])([A-Z])', r'\1_\2', word).lower() if re.search(r'[a-z][a-z0-9]*[A-Z]', word) else word

def statements(text):
    """Pairs of a name and the text of its statement, up to the next line of the same or lesser indent."""
    lines = text.split('\n')
    for k, line in enumerate(lines):
        if line.lstrip().startswith('--'):
            continue
        m = DEF.match(code_of(line))
        if not m or re.match(r'\s*(use|pub use|mod|module|let|in|elim|λ|record)\b', line):
            continue
        indent = len(line) - len(line.lstrip())
        body = [m.group(2)]
        for more in lines[k + 1:]:
            if not more.strip() or len(more) - len(more.lstrip()) <= indent:
                break
            body.append(code_of(more))
        for name in m.group(1).split():
            yield name, ' '.join(body)

def mapping():
    found = collections.defaultdict(list)
    for f in antt_files():
        text = open(f).read()
        for name, statement in statements(text):
            if statement.strip().startswith(('tie.', 'goal.')):
                continue
            found[name].append(statement)
    out = {}
    for name, stated in found.items():
        parts = [snake(p) for p in name.split('-')]
        if len(parts) > 1:
            joined = parts[0]
            for k in range(1, len(parts)):
                left, right = '-'.join(name.split('-')[:k]), '-'.join(name.split('-')[k:])
                cited = lambda w, s: w in IDENT.findall(s) or snake(w) in [snake(t) for t in IDENT.findall(s)]
                both = all(cited(left, s) and cited(right, s) for s in stated)
                joined += ('-' if both else '_') + parts[k]
        else:
            joined = parts[0]
        if name in TOLD:
            joined = TOLD[name]
        if joined != name:
            out[name] = joined
    return out

def turn(text, names, hyphens=True, walk=False):
    def one(m):
        w = m.group(0)
        # In a function's own proof file a name behind a dot is mostly one that Rattle made.
        if walk and '-' in w and m.start() and text[m.start() - 1] == '.':
            return names.get(w, w).removesuffix('_lem')
        if '-' in w and not hyphens:
            return '-'.join(names.get(p, p) if '-' not in p else p for p in w.split('-'))
        return names.get(w, w)
    return IDENT.sub(one, text)

def turn_antt(text, names, walk=False):
    out = []
    for line in text.split('\n'):
        code = code_of(line)
        out.append(turn(code, names, walk=walk) + turn(line[len(code):], names, hyphens=False))
    return '\n'.join(out)

STRING = re.compile(r'b?"(?:[^"\\]|\\.)*"')

def turn_rt(text, names):
    out = []
    for line in text.split('\n'):
        at, done = 0, ''
        for m in STRING.finditer(line):
            done += turn(line[at:m.start()], names, hyphens=False) + m.group(0)
            at = m.end()
        out.append(done + turn(line[at:], names, hyphens=False))
    return '\n'.join(out)

def clashes(before, names, where):
    said = []
    for f, text in before.items():
        code = '\n'.join(code_of(l) for l in text.split('\n')) if f.endswith('.antt') else text
        seen = collections.defaultdict(set)
        for w in IDENT.findall(code):
            seen[{**names, **TOLD_IN.get(f, {})}.get(w, w)].add(w)
        for new, olds in seen.items():
            if len(olds) > 1:
                said.append((new, tuple(sorted(olds)), f))
    return said

def main():
    names = mapping()
    files = antt_files() + sorted(glob.glob('crates/*/src/**/*.rt', recursive=True))
    before = {f: open(f).read() for f in files}
    for new, olds, f in sorted(clashes(before, names, files)):
        print('together:', f, new, olds)
    if DRY:
        for a, b in sorted(names.items()):
            print('name:', a, b)
        return
    for f in files:
        here = {**names, **TOLD_IN.get(f, {})}
        new = turn_antt(before[f], here, f.endswith('/Proof.antt')) if f.endswith('.antt') else turn_rt(before[f], here)
        if new != before[f]:
            open(f, 'w').write(new)
    for f in ['README.md', 'docs/RULES.md', 'docs/GUARANTEES.md', 'docs/DECISIONS.md'] + sorted(glob.glob('crates/*/must-fail/*.edit')):
        text = open(f).read()
        new = turn(text, names, hyphens=f.endswith('.edit'))
        if new != text:
            open(f, 'w').write(new)
    with open('docs/PORT-NAMES.txt', 'w') as out:
        for a, b in sorted(names.items()):
            out.write(f'{a} {b}\n')
    print(f'{len(names)} names')

main()
