#!/usr/bin/env python3
"""Counts the places that docs/DESIGN-PASS.md speaks of, in crates/*/src.

usage: python3 tools/places.py [COMMIT] [--list]     counts in the work tree, or in a commit; --list prints each place

It proves nothing: a pattern finds a form, and the page says what stays and why."""
import collections
import re
import subprocess
import sys

LINES = [
    ("1 a function answers a refusal's number", r"^(\) -> u32$|.*\) -> u32$)", r"crates/(hash|octets|refusals)/"),
    ("1 an answer compared with 0", r"(!=|==) refusals::ACCEPTED|sha256\(.*\) == 0", None),
    ("1 a refusal's number as a constant", r"^pub const [A-Z_]+: u32 = [0-9]+;", r"crates/(?!refusals/)"),
    ("1 a kind's number as a constant",
     r"const (NEW|APPEND|READ|FINALISE|INITIALISE|OLD|DAMAGED|RACK|RECEIPT|BLANK|PREPARED|ACTIVE|FINALISED|FOREIGN): u8", None),
    ("1 a struct of an answer or a number beside a value", r"^    (pub )?(answer|number): (u32|Answer),", None),
    ("1 a flag beside a value", r"\b(there|changed|same): bool\b", None),
    ("1 an enum of our own", r"^(pub )?enum ", None),
    ("3 a loop that counts by hand", r"^\s*while ", None),
    ("4 equality and order by a function of our own", r"\b(is_same|is_before|is_label|is_tail|same)\((?!&self)", None),
    ("4 the lesser, the greater, zeros by hand", r"\b(least|smaller|greater|clear)\(", None),
    ("4 a conversion as a function of our own",
     r"\bfn (plain_of|statement_of|keys_of|places_of|kind_number|kind_named|size_of|four_bytes|value|refusal|refused|answer)\(", None),
    ("4 a field copied to be passed on", r"^\s*let [a-z_]+ = [a-z_]+\.[a-z_]+;$", None),
    ("6 a count beside a buffer", r"\b(count|known): (u8|usize), (rows|keys|table|lines|lent)|(rows|table|keys|lines): [^,]*, (count|known): (u8|usize)|\bkeys: Keys, (count|n)", None),
    ("7 one shape with another step", r"^    rows_typed\(rows\);", None),
]
LEAST_TOKENS = 18
LEAST_CONTRACTS = 3


def files(commit):
    if commit is None:
        names = subprocess.run(["git", "ls-files", "crates"], capture_output=True, text=True, check=True).stdout.split()
    else:
        names = subprocess.run(["git", "ls-tree", "-r", "--name-only", commit, "crates"], capture_output=True, text=True, check=True).stdout.split()
    names = sorted(n for n in names if "/src/" in n and n.endswith(".rt"))
    if commit is None:
        return [(n, open(n, encoding="utf-8").read()) for n in names]
    return [(n, subprocess.run(["git", "show", f"{commit}:{n}"], capture_output=True, text=True, check=True).stdout) for n in names]


def functions(text):
    """Each function: its name, its parameters, its clauses and its body."""
    for m in re.finditer(r"^( *)(?:pub )?(?:const )?(?:extern \"C\" )?fn (\w+)(?:<[^>]*>)?\(((?:[^()]|\([^()]*\))*)\)(.*?)^\1\{(.*?)^\1\}", text, re.S | re.M):
        yield m.group(2), m.group(3), m.group(4), m.group(5)


def shape(body):
    """The body with its names numbered by their first use, and its constants and numbers as one."""
    seen = {}
    out = []
    for t in re.findall(r"[A-Za-z_]\w*|\d\w*|[^\s\w]", re.sub(r"//.*", "", body)):
        if re.fullmatch(r"[A-Z][A-Z_0-9]*|\d\w*", t):
            out.append("#")
        elif t in {"let", "mut", "if", "else", "while", "for", "in", "return", "true", "false", "match", "as", "u8", "usize", "u64", "u32"}:
            out.append(t)
        elif re.match(r"[A-Za-z_]", t):
            out.append(str(seen.setdefault(t, len(seen))))
        else:
            out.append(t)
    return tuple(out)


def own(texts):
    """The functions but for those of mahqurith, which say again what they export: where each stands, its parameters and its body."""
    for n, t in texts:
        if "/mahqurith/" not in n:
            for name, params, _, body in functions(t):
                yield f"{n}: {name}", params, body


def twins(texts):
    groups = collections.defaultdict(list)
    for place, _, body in own(texts):
        s = shape(body)
        if len(s) >= LEAST_TOKENS:
            groups[s].append(place)
    return [g for g in groups.values() if len(g) > 1]


def facts(texts):
    count = collections.defaultdict(list)
    for n, t in texts:
        for name, _, clauses, _ in functions(t):
            for r in re.findall(r"requires\s*(?:\w+\s*)?\{(.*?)\}\s*(?=ensures|requires|$)", clauses, re.S):
                for part in re.split(r"\s×\s", r.replace("\n", " ")):
                    fact = re.sub(r"\b\w+\.(now|old)\b", "_", part.strip(" ()"))
                    count[fact].append(f"{n}: {name}")
    return {f: w for f, w in count.items() if len(w) >= LEAST_CONTRACTS}


def together(texts):
    count = collections.defaultdict(list)
    for place, params, _ in own(texts):
        ps = [p.strip() for p in params.replace("\n", " ").split(",") if ":" in p]
        for i in range(len(ps) - 2):
            count[tuple(ps[i:i + 3])].append(place)
    return {f: w for f, w in count.items() if len(w) >= LEAST_CONTRACTS}


def say(n, what, places):
    print(f"{n:5} {what}")
    if "--list" in sys.argv:
        for p in places:
            print(f"        {p}")


def main():
    words = [w for w in sys.argv[1:] if not w.startswith("--")]
    texts = files(words[0] if words else None)
    for what, pattern, skip in LINES:
        hits = [f"{n}:{i}: {l.strip()}" for n, t in texts if not (skip and re.search(skip, n)) for i, l in enumerate(t.splitlines(), 1)
                if re.search(pattern, l) and not l.lstrip().startswith("//")]
        say(len(hits), what, hits)
        if what.startswith("1 an enum"):
            g = twins(texts)
            say(sum(len(x) for x in g), f"2 functions with a twin of their shape, in {len(g)} groups", [" | ".join(x) for x in g])
    f = facts(texts)
    say(len(f), f"5 facts that {LEAST_CONTRACTS} or more contracts ask for", [f"{len(w)} {k}" for k, w in sorted(f.items(), key=lambda x: -len(x[1]))])
    t = together(texts)
    say(len(t), f"5 three parameters that stand together in {LEAST_CONTRACTS} or more functions", [f"{len(w)} {', '.join(k)}" for k, w in sorted(t.items(), key=lambda x: -len(x[1]))])


if __name__ == "__main__":
    main()
