#!/usr/bin/env python3
"""Spells the repository's own definitions and lemmas as today's library does.

usage: python3 tools/respell.py            at the top of the repository, once, after the kit's port.py

Types, records and facts are in upper camel case; every other definition, constructor, field and lemma is in snake case.
The names are those that specs/ and proofs/ declare. In a function's Answers and Invariants the names that Rattle makes stay,
and so does everything in src/ but what clauses and ghost items cite. Where two names would fall together in a file, the
lemma's gets `_lem`. What changed is printed, a line for each name.
"""

import glob
import re

DECLARED = re.compile(r"^( *)((?:pub|abbrev|unfoldable|data|record) )*([^\s(){}.;,@\"«»]+)((?: \([^()]*\)| \{[^{}]*\})*) :( .*)?$")
FIELDS = re.compile(r"^ +((?:pub )?[^\s(){}.;,@\"«»]+(?: [^\s(){}.;,@\"«»]+)+) : (.*)$")
MADE = re.compile(r"/(Answers|Invariants)\.antt$")
USE = re.compile(r"^\s*(?:ghost )?use ([\w'+.-]+?)\.\{([^}]*)\}", re.M)


# names that would meet a Rust function's, and the names that imports give
CHOSEN = {
    "shownRow": "row_shown",
    "shownArrow": "arrow_shown",
    "makeHub": "hub_step",
    "makeHubs": "hubs_step",
    "isBlank": "is_blank_origin",
    "noCourse": "empty_course",
    "insOf": "tree_ins",
    "outsOf": "tree_outs",
}
ALIAS = re.compile(r"\bas ([a-z]+[A-Z]\w*)")


def paths():
    found = []
    for layer in ("specs", "proofs"):
        found += glob.glob(f"crates/*/{layer}/**/*.antt", recursive=True)
    return sorted(found)


def sources():
    return sorted(glob.glob("crates/*/src/**/*.rt", recursive=True))


def declarations(text, made):
    """The names that a file declares, each with whether it is a type or a fact. A goal's answer is named by Rattle."""
    names = {}
    for line in text.split("\n"):
        if line.lstrip().startswith("--") or line.startswith("use "):
            continue
        many = FIELDS.match(line)
        single = DECLARED.match(line)
        if single:
            words, said = [single.group(3)], single.group(5) or ""
        elif many and not any(w in many.group(1).split() for w in ("let", "abbrev", "unfoldable", "record", "data", "=")):
            words, said = [w for w in many.group(1).split() if w != "pub"], many.group(2)
        else:
            continue
        if made and re.match(r"goal\.", said.strip()):
            continue
        for word in words:
            names[word] = bool(re.search(r"(?:^|→ )Type 0( where)?$", said.strip()))
    return names


def upper(name):
    return "".join(part[:1].upper() + part[1:] for part in name.split("-"))


def snake(name):
    name = name.replace("getD", "get_or")
    name = re.sub(r"(?<=[a-z0-9])[A-Z]", lambda m: "_" + m[0].lower(), name)
    return re.sub(r"-(\w)", lambda m: "_" + m[1].lower(), name)


def pattern(name):
    return re.compile(rf"(?<![\w'·-])(?<!\bgoal\.)(?<!\bc\.){re.escape(name)}(?![\w'-])")


def main():
    texts = {p: open(p, encoding="utf-8").read() for p in paths() + sources()}
    kinds = {}
    for p, text in texts.items():
        if p.endswith(".antt"):
            for name, fact in declarations(text, bool(MADE.search(p))).items():
                kinds[name] = kinds.get(name, False) or fact
        for name in ALIAS.findall(text):
            kinds.setdefault(name, False)
    new = {}
    for name, fact in kinds.items():
        to = CHOSEN.get(name) or (upper(name) if name[:1].isupper() else snake(name))
        if to != name:
            new[name] = to
    whole = {name: pattern(name) for name in new}
    # what a file imports from the libraries keeps its spelling there
    foreign = {}
    for p, text in texts.items():
        words = set()
        for module, names in USE.findall(text):
            if re.match(r"Rattle\.std\b|borrow\b|Prim\b|core\b", module):
                words |= {w.split(" as ")[-1].strip() for w in names.split(",")}
        foreign[p] = words
    # names that would fall together
    for p, text in texts.items():
        for name, to in list(new.items()):
            if name in text and whole[name].search(text) and pattern(to).search(text):
                if not to.endswith("_lem"):
                    new[name] = to + "_lem"
                    print(f"together: {p}: {name} -> {new[name]}")
    byto = {}
    for name, to in new.items():
        byto.setdefault(to, []).append(name)
    for to, names in byto.items():
        if len(names) > 1:
            for p, text in texts.items():
                if sum(bool(whole[n].search(text)) for n in names) > 1:
                    lemma = [n for n in names if "-" in n][-1]
                    if not new[lemma].endswith("_lem"):
                        new[lemma] = new[lemma] + "_lem"
                        print(f"together: {p}: {names} -> {new[lemma]}")
    order = sorted(new, key=len, reverse=True)
    any_name = re.compile(r"(?<![\w'·-])(?:" + "|".join(re.escape(n) for n in order) + r")(?![\w'-])")
    for p, text in texts.items():
        made = bool(MADE.search(p))

        def turn(m):
            word, before = m[0], text[max(0, m.start() - 12) : m.start()]
            if word in foreign[p]:
                return word
            line = text[text.rfind("\n", 0, m.start()) + 1 : m.start()]
            if "--" in line and "-" in word and not re.search(r"--   ([^ ]+, )*$", line):
                return word
            if made and re.search(r"\b(?:goal|c|g|w|l)(?:\.[\w·'-]+)*\.$", before) and re.search(r"(?:^|\W)(?:goal|c|l)\.$", before):
                return word
            if p.endswith(".rt"):
                if "//" in line or line.count('"') % 2:
                    return word
            return new[word]

        turned = any_name.sub(turn, text)
        if turned != text:
            with open(p, "w", encoding="utf-8") as f:
                f.write(turned)
    for name in sorted(new):
        print(f"{name} -> {new[name]}")


main()
