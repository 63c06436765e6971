#!/usr/bin/env python3
"""Brings the repository's own definitions and lemmas to today's spelling. usage: tools/spell.py, at the top, once, after the kit's port.py.

A definition, lemma or field `likeThis` becomes `like_this`; a dash stays where it joins two names (a definition of specs/, a type or one of LIBRARY), and is an underscore before or
after a plain word. Types, and names of src/, keep theirs. A lemma that would meet another name gets `_lem`. Texts: .antt, clauses and comments of .rt, must-fail edits, README and docs/.
"""

import os
import re
import sys

NAME = r"[^\s(){}:;,.\"«»@]+"
DECLARED = re.compile(rf"(?m)^( *)((?:(?:abbrev|unfoldable|pub|data|record|ruleset) )*)({NAME})((?: [({{][^\n]*?[)}}])*) :(?= |$)")
# words of the library in names of lemmas
LIBRARY = set("length take drop get_or get_d append set map replicate sum min max add sub mul mod div".split())
KEPT = re.compile(r"^[A-Z]")


def texts(top):
    for folder, dirs, files in os.walk(top):
        dirs[:] = sorted(d for d in dirs if d not in ("out", "target", ".git", "host"))
        for f in sorted(files):
            if f.endswith((".antt", ".rt", ".edit")) or f.endswith(".md") and f not in ("PORT.md", "PORT-OTHER.md"):
                yield os.path.join(folder, f)


def own(path):
    return re.search(r"crates/\w+/(specs|proofs)/[^/]+\.antt$", path)


def snake(part):
    return part if KEPT.match(part) else re.sub(r"(?<=[a-z0-9])([A-Z])", lambda m: "_" + m[1].lower(), part)


def spelled(name, words):
    parts = [snake(p) for p in name.split("-")]
    text = parts[0]
    for before, part in zip(parts, parts[1:]):
        joined = all(w in words or KEPT.match(w) for w in (before, part))
        text += ("-" if joined or not before or not part else "_") + part
    return text


def table(files):
    """Each own name with its new spelling. A definition comes first; a lemma or field whose new name is taken gets `_lem`."""
    specs, declared = set(), {}
    for path, text in files.items():
        if own(path):
            for m in DECLARED.finditer(text):
                defined = bool(re.search("abbrev|unfoldable|data|record", m[2]))
                declared[m[3]] = declared.get(m[3], False) or defined
                if "/specs/" in path and not m[1]:
                    specs.add(snake(m[3]))
    words = specs | LIBRARY
    taken, turned = {}, {}
    for name in sorted(declared, key=lambda n: (not declared[n], spelled(n, words) != n, n)):
        new = spelled(name, words)
        while new in taken:
            new += "_lem"
        taken[new] = name
        if new != name:
            turned[name] = new
    return turned


def main():
    files = {}
    for path in texts("crates"):
        with open(path, encoding="utf-8") as f:
            files[path] = f.read()
    turned = table(files)
    for path in [p for p in texts(".") if not p.startswith("./crates/")]:
        with open(path, encoding="utf-8") as f:
            files[path] = f.read()
    ends = r"(?![^\s(){}:;,.\"«»@`/])"
    word = re.compile(r"(?<![^\s(){}:;,.\"«»@`/·])(" + "|".join(re.escape(n) for n in sorted(turned, key=len, reverse=True)) + ")" + ends)
    text_or_word = re.compile(r'"(?:[^"\\\n]|\\.)*"|' + word.pattern)
    plain = re.compile(r"(?<![\w./-])[a-z][\w<≤'-]*(?![\w/(])")
    now = {n for path, text in files.items() if own(path) for n in (turned.get(m[3], m[3]) for m in DECLARED.finditer(text))}

    def in_prose(name):
        """A name in a page or an edit: also one that port.py turned, since it turns neither."""
        guess = snake(name).replace("-", "_")
        return turned.get(name) or (guess if guess in now and name not in now else name)

    for path, text in files.items():
        if path.endswith(".md"):
            new = re.sub(r"`[^`\n]*`", lambda m: plain.sub(lambda w: in_prose(w[0]), m[0]), text)
        elif path.endswith(".edit"):
            new = plain.sub(lambda w: in_prose(w[0]), text)
        else:
            new = text_or_word.sub(lambda m: turned[m[1]] if m[1] else m[0], text)
        if new != text:
            with open(path, "w", encoding="utf-8") as f:
                f.write(new)
    for name in sorted(turned):
        print(name, turned[name], sep="\t")


if __name__ == "__main__":
    sys.exit(main())
