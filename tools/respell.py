#!/usr/bin/env python3
"""Brings this repository's own definitions to the spelling of today's Rattle: words in snake case.

Run once, at the top, right after port.py, which respells only names that the library has too. It turns each lower-case name
with a capital inside that a file of specs/ or proofs/ declares, wherever it stands in a .antt or a .rt file. Functions of src/,
exported names, strings and types keep their names: a definition may share its name with the function that meets it, as
`delivered` did before.

Six lemmas fell together with a definition, since one was written with a dash and the other with a capital: they get their dash
back (`up-to`, a lemma, beside `up_to`, the numbers below n).
"""
import glob
import re
import sys

DECLARED = re.compile(
    r"^\s*(?:(?:abbrev|unfoldable|pub|record|data|ruleset)\s+)*([^\s:(){}\[\].,=]+)\s*(?::|\()"
)
NAME = re.compile(r"(?<![\w'-])[a-z][\w'-]*")

# the lemma, the files in which the name is the lemma's, and files in which it is so only at some places, by a mark before it
DASHES = {
    "in_place": ["scenario/proofs/LineTable", "reasons/proofs/LineCascade", "reasons/proofs/lines/line_refusal/Proof"],
    "one_more": ["scenario/proofs/FromStart", "scenario/proofs/LineNumbers"],
    "too_few": ["settings/proofs/Refusing", "settings/proofs/settings_refusal/Proof"],
    "wrong_row": ["exchange/proofs/Refusing", "exchange/proofs/judging/refusal/Proof"],
    "wrong_size": ["reasons/proofs/LineCascade"],
    "up_to": ["rules/proofs/RefusalTable", "rules/proofs/Agreement", "scenario/proofs/LineTable"],
}


def snake(name):
    return re.sub(r"(?<=[a-z0-9])([A-Z])", lambda m: "_" + m.group(1).lower(), name)


def declared(paths):
    names = set()
    for path in paths:
        for line in open(path, encoding="utf-8"):
            found = DECLARED.match(line)
            if found and re.match(r"[a-z][\w'-]*$", found.group(1)) and re.search(r"[a-z][A-Z]", found.group(1)):
                names.add(found.group(1))
    return names


def main():
    antt = sorted(glob.glob("crates/*/specs/**/*.antt", recursive=True) + glob.glob("crates/*/proofs/**/*.antt", recursive=True))
    rt = sorted(glob.glob("crates/*/src/**/*.rt", recursive=True))
    turned = {name: snake(name) for name in declared(antt) if "Inv" not in name}
    for path in antt + rt:
        text = open(path, encoding="utf-8").read()
        new = text
        for lemma, files in DASHES.items():
            if any(path == f"crates/{f}.antt" for f in files):
                new = re.sub(rf"(?<![\w'-]){lemma}(?![\w'-])", lemma.replace("_", "-"), new)
        new = NAME.sub(lambda m: turned.get(m.group(0), m.group(0)), new)
        if new != text:
            open(path, "w", encoding="utf-8").write(new)
    for name in sorted(turned):
        print(name, turned[name])
    return 0


if __name__ == "__main__":
    sys.exit(main())
