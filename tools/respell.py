#!/usr/bin/env python3
"""Brings the repository's own definitions and lemmas to today's spelling, where port.py left them.

usage: python3 tools/respell.py [--table FILE]     in the repository, once, right after /opt/rattle/port/port.py

Words are in snake case: carrylessProduct is carryless_product; a test is named as std names tests, ternary? is is_ternary. In a lemma's name a
dash joins two names and a plain word is added with an underscore: mod-add_mod, bits_named. Functions of src/, strings, inputs and outputs keep
their names. It stops where two names of a file would fall together.
"""
import collections
import os
import re
import subprocess
import sys

SNAKE = "/opt/rattle/port/notes/2026-11-18-names-are-in-snake-case/snake.py"
STD = "/opt/rattle/rattle"
HEAD = re.compile(r"^\s*((?:(?:abbrev|unfoldable|pub|data|record|ruleset)\s+)*)([^\s:{}()]+)\s*(?::(?!:)|\(|\{)")
TOKEN = re.compile(r"[^\s(){}.;,@\"«»\[\]]+")
PLAIN_TESTS = ("agrees", "agree", "told", "recovers", "located")
# names that the library or Rattle's own goals have, or that would fall together with another of the same file
KEPT = re.compile(r"bit-(xor|and)|chi-\d")
CHOSEN = {"fits?": "is_fitting", "entryFits?": "entry_fits", "seeded?": "is_seeded_key", "has-mark": "marked", "key-error": "key_error_is"}
# the library's words, as they are spelled now
STEMS = {"getD": "get_or", "zipWith": "zip_with"}
# crates named as a library of the kit
CRATES = {"hex": "hexadecimal"}
# modules imported under a name that the library has for something else
ALIASES = {"Any": "AnySetting"}


def files(root, want):
    for folder, dirs, names in os.walk(root):
        dirs[:] = sorted(d for d in dirs if d not in ("out", ".git"))
        for n in sorted(names):
            p = os.path.join(folder, n)
            if want(p):
                yield p


def read(p):
    with open(p, encoding="utf-8") as f:
        return f.read()


def code(t):
    return re.sub(r"--.*", "", t)


def definitions(paths):
    out = {}
    for p in paths:
        for l in code(read(p)).split("\n"):
            m = HEAD.match(l)
            if m:
                out.setdefault(m[2], set()).add("fun" if re.search("abbrev|unfoldable|data|record", m[1]) or "/specs/" in p else "lemma")
    return out


def snake(name):
    if name[:1].isupper() or name in STEMS:
        return STEMS.get(name, name)
    return re.sub(r"(?<=[A-Za-z0-9])([A-Z])", lambda m: "_" + m[1].lower(), name)


def spelled(name, plain):
    """The new spelling of a name: each part between dashes in snake case, and a dash before a plain word is an underscore."""
    if name in CHOSEN:
        return CHOSEN[name]
    test = name.endswith("?")
    parts = name.rstrip("?").split("-")
    out = snake(parts[0])
    for p in parts[1:]:
        out += ("_" if plain(p) else "-") + snake(p)
    if test and out.split("_")[-1] not in PLAIN_TESTS and "-" not in out:
        out = "is_" + out
    return out


def table(root):
    top = lambda p: re.search(r"/crates/[^/]+/(specs|proofs)/[^/]+\.antt$", p)
    own = definitions(files(os.path.join(root, "crates"), lambda p: top(p)))
    inner = definitions(files(os.path.join(root, "crates"), lambda p: p.endswith(".antt") and not top(p)))
    std = definitions(files(STD, lambda p: p.endswith(".antt") and "/tests/" not in p))
    low, dash = collections.Counter(), collections.Counter()
    for n in std:
        for m in re.finditer(r"([_-])([^_-]+)", n):
            (low if m[1] == "_" else dash)[m[2]] += 1
    functions = {n for n in own if "fun" in own[n]}

    def plain(w):
        return w not in functions and w[:1].islower() and snake(w) == w and low[w] > dash[w] or w.isdigit()

    out = {}
    for n in own:
        if n in inner and "-" in n or n in std and n[:1].islower() and snake(n) == n or KEPT.fullmatch(n):
            continue
        new = spelled(n, plain)
        if new != n:
            out[n] = new
    words = {out.get(n, n) for n in functions}
    for n in own:
        flat = n.replace("-", "_")
        if n not in functions and n == out.get(n, n).replace("_", "-") or n not in functions and "?" not in n:
            if flat in words and flat not in own or flat in words and n == flat:
                out[n] = flat + "_lem"
    return out


def clashes(root, names):
    bad = []
    for p in files(os.path.join(root, "crates"), lambda p: p.endswith((".antt", ".rt"))):
        text = code(read(p))
        if p.endswith(".rt") or "/proofs/" in p and os.path.basename(os.path.dirname(p)) != "proofs":
            continue
        words = set(TOKEN.findall(re.sub(r"Rattle(\.[\w+]+)+", "", text)))
        for old in words & names.keys():
            if names[old] in words and names[old] not in names:
                bad.append((p, old, names[old]))
    turned = collections.defaultdict(set)
    for old, new in names.items():
        turned[new].add(old)
    both = {n: o for n, o in turned.items() if len(o) > 1}
    for p in files(os.path.join(root, "crates"), lambda p: p.endswith((".antt", ".rt"))):
        words = set(TOKEN.findall(code(read(p))))
        bad += [(p, o, n) for n, os_ in both.items() for o in [sorted(os_ & words)] if len(o) > 1]
    return bad


def edits(root, names):
    for p in files(os.path.join(root, "crates"), lambda p: p.endswith(".edit")):
        t = read(p)
        new = TOKEN.sub(lambda m: names.get(m[0], m[0]), t)
        if new != t:
            with open(p, "w", encoding="utf-8") as f:
                f.write(new)


def crates(root):
    """Crates get another name: the folder, crates.txt, paths and uses."""
    for old, new in CRATES.items():
        os.rename(os.path.join(root, "crates", old), os.path.join(root, "crates", new))
        line = re.compile(rf"(?<![\w./-]){old}(?![\w.-])")
        for p in files(root, lambda p: p.endswith((".antt", ".rt", ".edit")) or p == os.path.join(root, "crates.txt")):
            t = read(p)
            if p.endswith("crates.txt"):
                n = "".join(l if l.startswith("#") else line.sub(new, l) for l in t.splitlines(keepends=True))
            else:
                n = re.sub(rf"\bRattle\.{old}\.", f"Rattle.{new}.", t)
                n = re.sub(rf"(?<![\w.:]){old}::", f"{new}::", n)
                n = re.sub(rf"(?m)^use {old}\b", f"use {new}", n)
            if n != t:
                with open(p, "w", encoding="utf-8") as f:
                    f.write(n)


def aliases(root):
    for p in files(os.path.join(root, "crates"), lambda p: p.endswith((".antt", ".rt", ".edit"))):
        t = read(p)
        n = t
        for old, new in ALIASES.items():
            n = re.sub(rf"\bas {old}\b", f"as {new}", n)
            n = re.sub(rf"(^|[^A-Za-z.]){old}\.(?=[\w])", rf"\g<1>{new}.", n, flags=re.M)
        if n != t:
            with open(p, "w", encoding="utf-8") as f:
                f.write(n)


def main(argv):
    root = os.path.abspath(".")
    names = table(root)
    bad = clashes(root, names)
    if "--table" in argv:
        with open(argv[argv.index("--table") + 1], "w", encoding="utf-8") as f:
            f.write("".join(f"{a}\t{b}\n" for a, b in sorted(names.items())))
    for p, old, new in bad:
        print(f"clash: {os.path.relpath(p, root)}: {old} would be {new}, which stands there")
    if bad:
        return 1
    where = "/tmp/respell.tsv"
    with open(where, "w", encoding="utf-8") as f:
        f.write("".join(f"{a}\t{b}\n" for a, b in sorted(names.items())))
    r = subprocess.run([sys.executable, SNAKE, "--table", where, os.path.join(root, "crates")])
    edits(root, names)
    aliases(root)
    crates(root)
    print(f"respell: {len(names)} names")
    return r.returncode


if __name__ == "__main__":
    raise SystemExit(main(sys.argv[1:]))
