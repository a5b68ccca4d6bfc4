#!/usr/bin/env python3
"""The must-fail edits, before the gate tries them: that takes it twenty minutes, and this a second.

usage: tests/edits.py          says which edits can not be applied, as after a change of the code that they edit
       tests/edits.py EDIT     applies one to the files of this checkout, for `rt check`; git restores them

An edit is applied as `rt` applies it: each text after `old: ` has to stand in its file once.
"""
import sys
from pathlib import Path


def edited(edit):
    """The files that an edit changes, with what they then hold."""
    texts, path, old = {}, None, None
    for line in edit.read_text(encoding="utf-8").splitlines():
        if line.startswith("file: "):
            path = edit.parent.parent / line[6:]
            texts.setdefault(path, path.read_text(encoding="utf-8"))
        elif line.startswith("old: "):
            old = line[5:]
        elif line.startswith("new:"):
            count = texts[path].count(old)
            if count != 1:
                raise ValueError("%s has %d times: %s" % (path, count, old.strip()))
            texts[path] = texts[path].replace(old, line[5:])
    return texts


def main():
    root = Path(__file__).resolve().parent.parent
    if len(sys.argv) > 1:
        for path, text in edited(Path(sys.argv[1]).resolve()).items():
            path.write_text(text, encoding="utf-8")
        return
    edits, bad = sorted(root.glob("crates/*/must-fail/*.edit")), 0
    for edit in edits:
        try:
            edited(edit)
        except (ValueError, OSError) as why:
            bad += 1
            print("%s: %s" % (edit.relative_to(root), why))
    print("%d edits, %d of them can not be applied" % (len(edits), bad))
    sys.exit(bad > 0)


main()
