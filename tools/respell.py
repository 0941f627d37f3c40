#!/usr/bin/env python3
"""Spells the repository's own names as today's Rattle does: run once at the top, right after port.py.

A definition, a field, a constructor and a theorem of specs/ is in snake case. In a lemma's name each word is in snake case, a dash stands only
between two names, and any other word is joined by `_`; the proof of a function f is f_spec. Types, modules, operators, names that Rattle
makes and names of src/ stay. Of two names that would fall together the lemma gets `_lem`; one that would
fall together with a name of the library is left as it was. Both are printed.
In pages (README.md, docs/ but for docs/landings) and in comments only what is in backticks, and camel case in comments, is turned.
"""
import collections
import glob
import re
import sys

TOKEN = re.compile(r"[^\s(){}\[\];,.«»\"`]+")
NAME = re.compile(r"[A-Za-z][^\s(){}\[\];,.«»\"`:]*$")
MADE = ("invariant-", "decreases-", "cast-result")
# lemmas and a field that stand beside a definition which takes their name, and where
ASIDE = {
    "after_run": ("after_run_lem", "crates/claims/"),
    "goes_on": ("goes_on_lem", "crates/decimal/", "crates/dot/proofs/NumberLaws.antt"),
    "met_at": ("met_at_lem", "crates/rules/", "crates/claims/"),
    "no_digit": ("no_digit_lem", "crates/"),
    "one_more": ("one_more_lem", "crates/receipts/", "crates/stops/"),
    "no_other": ("no_other_form", "crates/claims/"),
}
# words of the library that lemmas are named after
LIBRARY = set(
    "length take drop map append reverse set get get_or suc zero one two add sub mul div mod pow min max eq ne eqb ltb leb lt le and or not true false "
    "nil cons some none ok err bit_or bit_and shl shr".split()
)


def read(path):
    with open(path, encoding="utf-8") as f:
        return f.read()


def sources(*patterns):
    return sorted(p for pattern in patterns for p in glob.glob(pattern, recursive=True) if "/out/" not in p)


def declared(text):
    """The names that a file declares, with whether each is a field or a constructor."""
    block = None
    for line in text.split("\n"):
        body = line.strip()
        if body.startswith("--") or not body:
            continue
        head = re.match(r"(?:pub )?(record|data) ", body)
        if head:
            block = head.group(1)
        elif not line.startswith(" "):
            block = None
        at = body.find(" : ")
        if at < 0 and body.endswith(" :"):
            at = len(body) - 2
        if at < 0 or head:
            continue
        words = body[:at].split()
        while words and words[0] in ("abbrev", "unfoldable", "pub"):
            words = words[1:]
        if words and all(NAME.match(w) for w in words):
            for word in words:
                yield word, block is not None


def snake(part):
    """Lower camel case to snake case; a part that begins with a capital is a type or a fact and stays."""
    if not part[:1].islower():
        return part
    return re.sub(r"(?<=[a-z0-9])[A-Z]+", lambda m: "_" + m.group().lower(), part)


def is_camel(name):
    return any(p[:1].islower() and re.match(r"[a-z][a-z0-9_']*[A-Z]", p) for p in name.split("-"))


def main():
    files = sources("crates/*/specs/**/*.antt", "crates/*/proofs/**/*.antt")
    texts = {p: read(p) for p in files}
    functions = set()
    for path in sources("crates/*/src/**/*.rt"):
        functions.update(re.findall(r"\bfn (\w+)", read(path)))
    spec, lemma, inner = set(), set(), set()
    for path, text in texts.items():
        for name, of_block in declared(text):
            (spec if "/specs/" in path else lemma).add(name)
            if of_block:
                inner.add(name)
    seen = collections.Counter()
    bare = {path: re.sub(r"(?m)^\s*--.*$|^use [^\s{]*", "", text) for path, text in texts.items()}
    tokens = {path: set(TOKEN.findall(text)) for path, text in bare.items()}
    foreign = set()
    for text in texts.values():
        for line in text.split("\n"):
            if not line.lstrip().startswith("--"):
                seen.update(TOKEN.findall(line))
        for path, names in re.findall(r"use ([^\s{]+)\.\{([^}]*)\}", text):
            if not path.startswith("Rattle.") or path.startswith("Rattle.std."):
                foreign.update(n.strip() for n in names.split(","))
    # local names in camel case
    local = {t for t in seen if is_camel(t) and NAME.match(t) and "_" not in t and t not in foreign and not re.match(r"x[0-9A-F]", t)}

    names = {snake(n) for n in spec if "-" not in n} | functions | LIBRARY

    def turned(name):
        if name.endswith("-spec") and name[:-5].replace("-", "_") in functions:
            return name.replace("-", "_")
        parts = [snake(p) for p in name.split("-")]
        if name in spec or name in inner:
            if any(not re.match(r"[\w']+$", p) for p in parts):
                return "-".join(parts)
            return "_".join(parts)
        out = parts[0]
        for before, after in zip(parts, parts[1:]):
            named = (before in names or before[:1].isupper()) and (after in names or after[:1].isupper())
            symbol = not re.match(r"[\w']+$", before) or not re.match(r"[\w']+$", after)
            out += ("-" if named or symbol else "_") + after
        return out

    new = {}
    for name in sorted(spec | lemma | local):
        if name in foreign or name.startswith(MADE) or name in functions:
            continue
        to = turned(name)
        if to != name:
            new[name] = to
    # of names that would fall together a definition takes the new one, a lemma gets `_lem`
    takers = collections.defaultdict(list)
    for name, to in new.items():
        takers[to].append(name)
    for to, olds in sorted(takers.items()):
        if to in foreign:
            for name in olds:
                print("stays, since %s is taken: %s" % (to, name))
                del new[name]
            continue
        olds.sort(key=lambda n: ("-" in n, n not in spec, n))
        for name in olds[0 if to in functions and "-" in olds[0] else 1 :]:
            # a field or a theorem of specs/ that no file has beside the first
            if name in spec and not any(name in words and (olds[0] in words and name != olds[0] or to in words) for words in tokens.values()):
                continue
            print("%s has a name of its own, so %s is %s_lem" % (to, name, to))
            new[name] = to + "_lem"
            if new[name] in seen or new[name] in takers:
                sys.exit("taken: " + new[name])

    for token in sorted(seen):
        if re.match("◌[a-z][A-Za-z]*◌$", token) and snake(token[1:-1]) != token[1:-1]:
            new[token] = "◌" + snake(token[1:-1]) + "◌"

    def code(text, path=""):
        aside = {name: at[0] for name, at in ASIDE.items() if path.startswith(at[1:])}
        return TOKEN.sub(lambda m: aside.get(m.group(), new.get(m.group(), m.group())), text)

    def comment(text, path):
        text = re.sub(r"`[^`]*`", lambda m: code(m.group(), path), text)
        return TOKEN.sub(lambda m: new[m.group()] if is_camel(m.group()) and m.group() in new else m.group(), text)

    def lines(text, mark, path):
        out = []
        for line in text.split("\n"):
            at = re.search(r"(^|\s)" + mark + r"(\s|$)", line)
            at = at.start() if at else len(line)
            out.append(code(line[:at], path) + comment(line[at:], path))
        return "\n".join(out)

    changed = 0

    def write(path, old, text):
        nonlocal changed
        if text != old:
            changed += 1
            with open(path, "w", encoding="utf-8") as f:
                f.write(text)

    for path, text in texts.items():
        write(path, text, lines(text, "--", path))
    for path in sources("crates/*/src/**/*.rt"):
        text = read(path)
        write(path, text, lines(text, "//", path))
    for path in sources("crates/*/must-fail/*.edit"):
        text = read(path)
        write(path, text, lines(text, "#", path))
    for path in sources("README.md", "docs/*.md"):
        text = read(path)
        write(path, text, re.sub(r"`[^`\n]*`", lambda m: code(m.group()), text))
    print("%d names, %d files" % (len(new), changed))
    if "--list" in sys.argv:
        for name, to in sorted(new.items()):
            print(name, to)


main()
