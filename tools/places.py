#!/usr/bin/env python3
"""Lists the places in src/ that docs/DESIGN-PASS.md counts.

usage: python3 tools/places.py [COMMIT]     of a commit, or of the working tree

It lists what a text search can find, a line for each place, and counts it. Which of them are of the
kind that a point names is decided by reading: the page says it, place by place.
"""
import re
import subprocess
import sys
from collections import defaultdict
from difflib import SequenceMatcher


def sources(commit):
    """The sources of every crate without their tests, by path."""
    pattern = 'crates/*/src/*.rt'
    if commit:
        names = subprocess.run(['git', 'ls-tree', '-r', '--name-only', commit, 'crates'], capture_output=True, text=True, check=True).stdout.split()
        names = [n for n in names if re.fullmatch(r'crates/[^/]+/src/.*\.rt', n)]
        read = lambda n: subprocess.run(['git', 'show', f'{commit}:{n}'], capture_output=True, text=True, check=True).stdout
    else:
        names = subprocess.run(['git', 'ls-files', '-co', '--exclude-standard', pattern], capture_output=True, text=True, check=True).stdout.split()
        read = lambda n: open(n, encoding='utf-8').read()
    out = {}
    for name in sorted(names):
        try:
            text = read(name)
        except FileNotFoundError:
            continue
        cut = text.find('#[cfg(test)]')
        out[name] = text if cut < 0 else text[:cut]
    return out


def functions(text):
    """The functions of a source: line, name, parameters, clauses, body."""
    for m in re.finditer(r'^[ \t]*(?:pub(?:\(crate\))? )?fn (\w+)', text, re.M):
        at = text.index('(', m.end())
        depth, end = 0, at
        for end in range(at, len(text)):
            depth += text[end] in '([{'
            depth -= text[end] in ')]}'
            if depth == 0:
                break
        clauses, rest = [], end + 1
        while True:
            found = re.compile(r'\s*(?:where[^{]*?)?(?:->[^{;]*?)?(requires|ensures)( \w+)? \{', re.S).match(text, rest)
            if not found:
                break
            depth, stop = 1, found.end()
            while depth:
                depth += text[stop] == '{'
                depth -= text[stop] == '}'
                stop += 1
            clauses.append((found.group(1), ' '.join(text[found.end():stop - 1].split())))
            rest = stop
        brace = text.find('{', rest)
        semi = text.find(';', rest)
        if brace < 0 or 0 <= semi < brace:
            body = ''
        else:
            depth, stop = 1, brace + 1
            while depth:
                depth += text[stop] == '{'
                depth -= text[stop] == '}'
                stop += 1
            body = text[brace:stop]
        yield text.count('\n', 0, m.start(1)) + 1, m.group(1), ' '.join(text[at + 1:end].split()), clauses, body


def search(files, pattern):
    found = []
    for name, text in files.items():
        for number, line in enumerate(text.split('\n'), 1):
            code = line.split('//')[0]
            if re.search(pattern, code):
                found.append(f'{name}:{number}: {line.strip()}')
    return found


def show(title, found):
    print(f'== {title}: {len(found)}')
    for line in found:
        print('   ' + line)


def parameters(text):
    parts, depth, last = [], 0, 0
    for i, ch in enumerate(text + ','):
        depth += ch in '([{<'
        depth -= ch in ')]}>'
        if ch == ',' and depth == 0:
            part = text[last:i].strip()
            if part and not part.endswith('self'):
                parts.append(part)
            last = i + 1
    return parts


def together(files, least):
    """Pairs of parameters that stand together in at least so many functions."""
    pairs = defaultdict(set)
    for name, text in files.items():
        crate = name.split('/')[1]
        for line, function, arguments, _, _ in functions(text):
            here = sorted(set(p.replace('mut ', '').replace('&', '') for p in parameters(arguments)))
            for i, one in enumerate(here):
                for other in here[i + 1:]:
                    pairs[crate, one, other].add(f'{function}')
    return [f'{crate}: `{a}` and `{b}`: {len(users)}: {", ".join(sorted(users))}' for (crate, a, b), users in sorted(pairs.items()) if len(users) >= least]


def facts(files, least):
    """Required facts that stand in at least so many functions."""
    users = defaultdict(set)
    for name, text in files.items():
        crate = name.split('/')[1]
        for line, function, _, clauses, _ in functions(text):
            for kind, clause in clauses:
                if kind != 'requires':
                    continue
                for part in re.split(r' × ', clause):
                    part = part.strip()
                    while part.startswith('(') and part.endswith(')'):
                        part = part[1:-1].strip()
                    part = re.sub(r'^\(+|\)+$', '', part) if part.count('(') != part.count(')') else part
                    users[crate, part.replace('.now', '').replace('.old', '').replace('self.', '')].add(function)
    return [f'{crate}: {{{fact}}}: {len(who)}: {", ".join(sorted(who))}' for (crate, fact), who in sorted(users.items()) if len(who) >= least]


def shape(body):
    words = re.findall(r'\w+|[^\w\s]', re.sub(r'//.*', '', body))
    keep = {'if', 'else', 'for', 'in', 'while', 'let', 'match', 'return', 'Some', 'None', 'Ok', 'Err', 'true', 'false', 'mut', 'self'}
    return [w if w in keep or not re.match(r'\w', w) else '_' for w in words]


def twins(files, least, ratio):
    """Pairs of functions whose bodies have nearly one shape."""
    bodies = []
    for name, text in files.items():
        for line, function, _, _, body in functions(text):
            words = shape(body)
            if len(words) >= least:
                bodies.append((f'{name}:{line} {function}', words))
    found = []
    for i, (one, a) in enumerate(bodies):
        for other, b in bodies[i + 1:]:
            if min(len(a), len(b)) / max(len(a), len(b)) < 0.7:
                continue
            same = SequenceMatcher(None, a, b, autojunk=False).ratio()
            if same >= ratio:
                found.append(f'{same:.2f} {one} ~ {other}')
    return sorted(found, reverse=True)


def main():
    files = sources(sys.argv[1] if len(sys.argv) > 1 else None)
    show('1 own enums', search(files, r'^\s*(pub(\(crate\))? )?enum '))
    show('1 flags in structs', search(files, r'^    (pub(\(crate\))? )?\w+: bool,$'))
    show('2 functions of nearly one shape', twins(files, 20, 0.9))
    show('3 loops over numbers, while and loop', search(files, r'\bfor [^{]* in [^{]*\.\.|\bwhile\b|\bloop \{'))
    show('4 conversions by `as`, and flags turned to numbers', search(files, r' as (u8|u16|u32|u64|usize)\b|\{ 1 \} else \{ 0 \}|\{ 0 \} else \{ 1 \}'))
    show('4 numbers of refusals and of lists, and texts printed by hand', search(files, r'\.number\(\)|\.is_err\(\)|"-"|=> "(yes|no)"|refused \d+'))
    show('5 facts required in three functions or more', facts(files, 3))
    show('5 parameters together in three functions or more', together(files, 3))
    show('6 arrays in structs and parameters', search(files, r':\s*&?(mut )?\[.*; \w+\]'))
    show('7 flags as parameters', search(files, r'\bon: bool|detail: Detail|first: bool|flag: bool'))
    lines = sum(text.count('\n') for text in files.values())
    print(f'== lines of code without tests: {lines}')


main()
