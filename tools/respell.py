#!/usr/bin/env python3
"""Respells the repository's own definitions, lemmas, fields and variables: words in snake case, types and facts in camel case.

Run once, at the top of a checkout, after the toolchain's own script has turned it. It goes by what the files of specs/ and the lemma
files of proofs/ define; names that the prover makes, names of its library and all text of functions stay. A lemma that is named after
a fact of the library keeps its dash.
"""
import glob
import re

WORD = r"[^\W\d][\w'∥₁]*(?:-[\w'*+∥₁]+)+"
DEFINED = re.compile(r"^\s*(?:abbrev |unfoldable |pub |record |data )*(" + WORD + r")\s*(?:\(|\{|:)", re.M)
TOKEN = re.compile(r"(?<![\w'-])" + WORD)
LOCAL = {
    "average-index", "by-offset", "by-ordinal", "each-high", "first-end", "it-is-not",
    "long-i", "long-n", "long-s", "long-t", "second-end", "use-price", "yes-it-is",
}
STAYS = {"All-map"}


def files():
    for path in sorted(glob.glob("crates/**/*", recursive=True)):
        if path.endswith((".rt", ".antt")) and "/out/" not in path:
            yield path


def respelled(name):
    if name[0].isupper():
        return "".join(part[0].upper() + part[1:] for part in name.split("-"))
    return name.replace("-", "_")


def own_names():
    names = set(LOCAL)
    for path in files():
        if not path.endswith(".antt"):
            continue
        with open(path, encoding="utf-8") as f:
            body = re.sub(r"--.*", "", f.read())
        for m in DEFINED.finditer(body):
            line = body[m.start():body.find("\n", m.end())]
            if not re.search(r":\s*goal\.", line):
                names.add(m.group(1))
    return names - STAYS


def turn(line, names, comment):
    """The line with its names respelled, but for its comment and its strings."""
    at = line.find(comment)
    code, rest = (line, "") if at < 0 else (line[:at], line[at:])
    parts = re.split(r'("[^"]*")', code)
    for i in range(0, len(parts), 2):
        parts[i] = TOKEN.sub(lambda m: respelled(m.group(0)) if m.group(0) in names else m.group(0), parts[i])
    return "".join(parts) + rest


def main():
    names = own_names()
    for path in files():
        with open(path, encoding="utf-8") as f:
            text = f.read()
        comment = "--" if path.endswith(".antt") else "//"
        new = "\n".join(turn(line, names, comment) for line in text.split("\n"))
        if new != text:
            with open(path, "w", encoding="utf-8") as f:
                f.write(new)
    print(f"respell: {len(names)} names")


if __name__ == "__main__":
    main()
