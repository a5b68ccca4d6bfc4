#!/usr/bin/env python3
"""Spells the repository's own definitions and lemmas as today's Rattle does: words in snake case, a dash only between two names.

usage: python3 tools/respell.py      at the top of the repository, once, after port.py

It goes over specs/, proofs/ and must-fail/ of each crate, and over the clauses and comments of src/. Names of functions in
src/, exported names, strings, inputs and outputs stay. A name whose new spelling would fall together with another name stays
as it is and is printed.
"""

import glob
import os
import re

# what std calls by a word of its own: a dash may stand beside it
STD = set("""length take drop append map reverse filter set get_or sum add sub mul div mod pow le lt eq ge gt zero suc cons nil refl min max
and or not xor if cond true false head last all any some none fold count zip concat replicate elim slice_get slice_set""".split())
HEAD = re.compile(r"^ *(?:abbrev |unfoldable |pub |inline )*([^\s:(){}.,;\u231c\"]+)((?: [({][^\n]*?[)}])*) : ", re.M)
FIELDS = re.compile(r"^ *pub ([^\s:(){}.,;\"]+) :", re.M)
DATA = re.compile(r"^ *(?:abbrev |unfoldable )?(?:pub )?(?:data|record) ([^\s:(){}.,;\"]+)", re.M)
TOKEN = re.compile(r"[^\s(){}\[\],;.:\"`\u27e6\u27e7]+")
# a name that is no part of a path
ALONE = re.compile(r"(?<![\w.'-])[^\s(){}\[\],;.:\"`\u27e6\u27e7]+(?!\.)(?![^\s(){}\[\],;.:\"`\u27e6\u27e7])")
CAMEL = re.compile(r"(?<=[a-z0-9])(?=[A-Z])")


def read(path):
    with open(path, encoding="utf-8") as f:
        return f.read()


def antt():
    for kind in ("specs", "proofs"):
        for path in sorted(glob.glob(f"crates/*/{kind}/**/*.antt", recursive=True)):
            if "/out/" not in path:
                yield path


def rust():
    for path in sorted(glob.glob("crates/*/src/**/*.rt", recursive=True)):
        yield path


def edits():
    yield from sorted(glob.glob("crates/*/must-fail/*.edit"))


def is_word(name):
    return re.fullmatch(r"[a-z][A-Za-z0-9_'\u2080\u2081-]*", name) is not None


def is_camel(name):
    return is_word(name) and re.search(r"[a-z0-9][A-Z]", name) is not None


def snake(name):
    return CAMEL.sub("_", name).lower() if is_camel(name) else name


def spelled(name, words):
    """The new spelling: each part in snake case, and a dash only where a name stands on both of its sides."""
    parts = [snake(p) for p in name.split("-")]
    out = parts[0]
    so_far = parts[0]
    for part in parts[1:]:
        if so_far in words and part in words:
            out += "-" + part
            so_far = part
        else:
            out += "_" + part
            so_far += "_" + part
    return out


def names():
    """Old and new spelling of each name that changes."""
    defined, in_specs, camels = set(), set(), set()
    alone, hidden = {}, {}
    for path in antt():
        text = read(path)
        alone[path] = {m.group(0) for m in ALONE.finditer(re.sub(r"(?m)--(?: .*)?$", "", text))}
        camels.update(t for t in TOKEN.findall(text) if is_camel(t))
        if os.path.basename(path) == "Proof.antt":
            continue
        here = {m.group(1) for m in HEAD.finditer(text)} | {m.group(1) for m in FIELDS.finditer(text)} | {m.group(1) for m in DATA.finditer(text)}
        defined |= here
        if "/specs/" in path:
            in_specs |= here
    for path in rust():
        text = read(path)
        alone[path] = set(TOKEN.findall(text))
        # a parameter or a local hides a word of its name
        hidden[path] = set(re.findall(r"\b([a-z_0-9]+): ", text)) | set(re.findall(r"\blet (?:mut )?([a-z_0-9]+)", text))
    words = STD | {snake(n) for n in in_specs if "-" not in n and is_word(n)}
    taken = {}
    for name in sorted(n for n in defined | camels if is_word(n)):
        new = spelled(name, words)
        taken.setdefault(new, []).append(name)
    change, only_alone = {}, {}
    for new, olds in sorted(taken.items()):
        # a definition comes before a lemma, which is told from it by its ending
        for i, name in enumerate(sorted(olds, key=lambda n: (n not in in_specs, n != new, n))):
            to = new if i == 0 else new + "_lem"
            if to == name:
                continue
            where = [p for p, tokens in alone.items() if name in tokens and (name != new or p not in hidden)]
            clash = [p for p in where if not p.endswith("/Proof.antt") and to in (hidden[p] if p in hidden else alone[p]) and (i or new not in olds)]
            if clash or i > 1:
                print(f"stays: {name}, as {to} is taken in {', '.join(clash[:3])}")
                continue
            (only_alone if name == new else change)[name] = to
    return change, only_alone


def respell(text, change, dashed):
    def one(m):
        t = m.group(0)
        if "-" in t and not dashed:
            return t
        return change.get(t, t)

    return TOKEN.sub(one, text)


QUOTED = re.compile(r'"(?:[^"\\\n]|\\.)*"')


def around(text, change, dashed):
    """Respells what stands outside quoted text."""
    out, at = [], 0
    for m in QUOTED.finditer(text):
        out += [respell(text[at : m.start()], change, dashed), m.group(0)]
        at = m.end()
    return "".join(out) + respell(text[at:], change, dashed)


def antt_line(line, change):
    code, dash, comment = line.partition("-- ") if not line.startswith("--") else ("", "", line)
    if comment:
        listed = re.match(r"(--\s{2,}\S+(?: \S+)*)(\s*)(.*)$", comment, re.S)
        if listed and comment.startswith("--  "):
            comment = respell(listed.group(1), change, True) + listed.group(2) + respell(listed.group(3), change, False)
        else:
            comment = re.sub(r"`[^`\n]*`", lambda m: respell(m.group(0), change, True), respell(comment, change, False))
    return around(code, change, True) + dash + comment


def rust_line(line, change):
    """A comment and Rust's own text have no dashed names; a clause and a ghost use have."""
    is_ghost = re.match(r"\s*(ghost|pub ghost|requires|ensures|pub use Rattle)", line) or re.search(r"\b(requires|ensures)\b.*\{", line)
    if line.lstrip().startswith("//"):
        return re.sub(r"`[^`\n]*`", lambda m: respell(m.group(0), change, True), respell(line, change, False))
    return around(line, change, bool(is_ghost))


def main():
    change, only_alone = names()
    for path in list(antt()) + list(rust()) + list(edits()):
        text = read(path)
        turn = rust_line if path.endswith(".rt") else antt_line
        was = text
        if path.endswith(".antt"):
            text = ALONE.sub(lambda m: only_alone.get(m.group(0), m.group(0)), text)
        if path.endswith(".edit"):
            new = "".join(l if l.startswith(("file:", "#")) else around(l, change, True) for l in text.splitlines(keepends=True))
        else:
            new = "".join(turn(l, change) for l in text.splitlines(keepends=True))
        if new != was:
            with open(path, "w", encoding="utf-8") as f:
                f.write(new)
    with open("tools/respelled.txt", "w", encoding="utf-8") as f:
        for old, new in sorted((change | only_alone).items()):
            f.write(f"{old} {new}\n")
    print(f"{len(change | only_alone)} names")


if __name__ == "__main__":
    main()
