#!/usr/bin/env python3
"""Brings this repository's own definitions and lemmas to the spelling of Rattle's library, after the kit's port.py and once.

usage: python3 tools/respell.py     at the top of the repository; --check lists what it would turn and writes nothing

Words in a name are joined by '_': a dash stays only where it joins two names that the lemma's own statement has, as in put-put. A name that begins with a
capital, a type's or a constructor's, loses its dashes, as in AppendMany. It turns whole words in the .antt files, and in the clauses and 'ghost use' items of
the .rt files; of a comment only what stands between back quotes. Names of Rattle source, labels that Rattle makes and quoted text stay.
"""

import collections
import glob
import re
import sys

# A value that is spelled like a type, a lemma of a function that is spelled in capitals; and where the plain turn would meet another name.
SPELLED = {
    "SHA-256": "sha_256",
    "Ch-by": "Ch_by",
    "Maj-by": "Maj_by",
    "Nearer-wf": "Nearer_wf",
}
WORD = re.compile(r"[^\s(){}.;,@\"«»]+")
QUIET = re.compile(r'"(?:[^"\\\n]|\\.)*"|(?<![^\s(){}.;,@"«»])--[^\n]*|\{-.*?-\}|//[^\n]*', re.S)
SPAN = re.compile(r"`[^`\n]*`")
DECLARED = re.compile(
    r"(?m)^( *)(?:(?:pub|abbrev|unfoldable|pattern|record|data) )*([^\s(){}.;,@\"«»:]+)(?: \{[^{}\n]*\}| \((?:[^()\n]|\((?:[^()\n]|\([^()\n]*\))*\))*\))* :(?=\s|$)"
)
BOUND = re.compile(r"\blet ([^\s(){}.;,@\"«»:]+-[^\s(){}.;,@\"«»:]*) [:=]")
MADE = re.compile(r"(?:-spec|^invariant-.*|^decreases-.*)$")


def sources():
    for folder in ("specs", "proofs"):
        yield from sorted(glob.glob(f"crates/*/{folder}/**/*.antt", recursive=True))


def statement(text, at):
    """The words of a signature, from its name to its first clause or a blank line."""
    lines = text[at:].split("\n")
    kept = [lines[0]]
    for line in lines[1:]:
        if not line.startswith(" "):
            break
        kept.append(line)
    return {w.rstrip("'") for w in WORD.findall(" ".join(kept))}


def spelled(name, said, is_lemma):
    if name in SPELLED:
        return SPELLED[name]
    if name[0].isupper():
        return "".join(part[:1].upper() + part[1:] for part in name.split("-"))
    parts = name.split("-")
    if is_lemma:
        for k in range(1, len(parts)):
            left, right = ("-".join(parts[:k]), "-".join(parts[k:]))
            sides = [{side, side.replace("-", "_")} for side in (left, right)]
            if all(side & said for side in sides):
                return left.replace("-", "_") + "-" + right.replace("-", "_")
    return "_".join(parts)


def table():
    rows, local, kinds = {}, collections.defaultdict(dict), collections.defaultdict(set)
    for path in sources():
        text = open(path, encoding="utf-8").read()
        code = QUIET.sub(lambda m: re.sub(r"[^\n]", " ", m[0]), text)
        by_hand = path.endswith("/Proof.antt")
        for m in DECLARED.finditer(code):
            name = m[2]
            if "-" not in name or name.startswith("-") or MADE.search(name):
                continue
            is_lemma = "/proofs/" in path
            new = spelled(name, statement(code, m.start(2)) - {name}, is_lemma)
            if by_hand:
                local[path].setdefault(name, new)
            elif "/specs/" in path or name not in rows:
                rows[name] = new
                kinds[name].add(path)
        for name in BOUND.findall(code):
            local[path].setdefault(name, spelled(name, set(), False))
    return rows, local


def turned(code, rows, own):
    def one(m):
        word = m[0]
        bare = word.rstrip("'")
        new = own.get(word) or rows.get(word) or own.get(bare) or rows.get(bare)
        if new is None:
            return word
        return new + (word[len(bare):] if word not in own and word not in rows else "")

    return WORD.sub(one, code)


def text_turned(text, rows, own):
    out, at = [], 0
    for m in QUIET.finditer(text):
        out.append(turned(text[at : m.start()], rows, own))
        quiet = m[0]
        if not quiet.startswith('"'):
            quiet = SPAN.sub(lambda s: turned(s[0][:1] + " " + s[0][1:-1] + " " + s[0][-1:], rows, own).replace("` ", "`", 1).replace(" `", "`"), quiet)
        out.append(quiet)
        at = m.end()
    out.append(turned(text[at:], rows, own))
    return "".join(out)


def brought(text):
    """The names that a file has from a library: they stay there."""
    own = {line.split(":")[0] for line in open("crates.txt", encoding="utf-8") if ":" in line}
    names = set()
    for m in re.finditer(r"\buse ([^\s;{]+)\.\{([^}]*)\}", text):
        steps = m[1].split(".")
        if steps[0] != "Rattle" or steps[1] not in own:
            names.update(item.strip().split(" as ")[0] for item in m[2].split(","))
    return names


def clashes(path, text, rows, own):
    """Names that would fall together in a file: a word that is there already in the new spelling, and two old words of one new spelling."""
    words = set(WORD.findall(QUIET.sub(" ", text)))
    new = collections.defaultdict(set)
    for word in words:
        to = own.get(word) or rows.get(word)
        if to:
            new[to].add(word)
    return [(path, sorted(old), to) for to, old in new.items() if len(old) > 1 or to in words - old]


def main(argv):
    rows, local = table()
    both = collections.defaultdict(set)
    for old, new in rows.items():
        both[new].add(old)
    for new, old in both.items():
        if len(old) > 1:
            print("look: one spelling for", sorted(old), new)
    count = 0
    for path in list(sources()) + sorted(glob.glob("crates/*/src/**/*.rt", recursive=True)):
        text = open(path, encoding="utf-8").read()
        own = dict(local.get(path, {})) | {name: name for name in brought(text)}
        for where, old, to in clashes(path, text, rows, own):
            print("look:", where, old, to)
        to = text_turned(text, rows, own)
        if to != text:
            count += 1
            if "--check" not in argv:
                with open(path, "w", encoding="utf-8") as f:
                    f.write(to)
    print(f"respell: {len(rows)} names, {count} files")
    return 0


if __name__ == "__main__":
    raise SystemExit(main(sys.argv[1:]))
