#!/usr/bin/env python3
"""Facts and parameters that come back: the parts of `requires` clauses that stand at three or more functions, and the parameters that stand
together, three at a time, at ten or more. usage: tools/facts.py [FOLDER]   (FOLDER: a checkout; this one if it is left out)"""
import collections
import glob
import itertools
import re
import sys

facts = collections.defaultdict(set)
together = collections.Counter()
for path in sorted(glob.glob((sys.argv[1] if sys.argv[1:] else ".") + "/crates/*/src/*.rt")):
    text = open(path).read()
    crate = path.split("/crates/")[1].split("/")[0]
    for name, clauses in re.findall(r"\bfn (\w+)[^{;]*?\n((?:    (?:requires|ensures)[^\n]*\n)+)\{", text):
        for clause in re.findall(r"requires (?:\w+ )?\{ (.*) \}\n", clauses):
            for part in clause.split(" × "):
                facts[part.strip().removeprefix("(").removesuffix(")")].add(f"{crate}::{name}")
    for parameters in re.findall(r"\bfn \w+(?:<[^>]*>)?\(([^)]*)\)", text):
        names = [p.split(":")[0].strip() for p in parameters.split(",") if ":" in p]
        together.update(itertools.combinations(names, 3))
for fact, functions in sorted(facts.items(), key=lambda item: -len(item[1])):
    if len(functions) >= 3:
        print(len(functions), fact, "|", *sorted(functions))
for names, count in together.most_common():
    if count >= 10:
        print(count, "together:", *names)
