#!/usr/bin/env python3
# Lists functions whose bodies are alike but for types, numbers, and which field or method they name: candidates for twins.
# Usage: tools/twins.py [FOLDER]   (a checkout; this one, unless named)
import collections
import glob
import re
import sys

BODY = re.compile(r"\n *\{\n|\) (?:-> [^\n{]*)?\{\n")


def bodies(text):
    for found in re.finditer(r"\bfn (\w+)", text):
        begin = BODY.search(text, found.end())
        if not begin:
            continue
        at, depth = begin.end(), 1
        while depth and at < len(text):
            depth += (text[at] == "{") - (text[at] == "}")
            at += 1
        yield found.group(1), text[begin.end() : at - 1]


def shape(body):
    body = re.sub(r"\s+", " ", body).strip()
    body = re.sub(r"\b\d+\b", "#", body)
    body = re.sub(r"\b[A-Z]\w*", "T", body)
    body = re.sub(r"\.\w+", ".m", body)
    return re.sub(r"\b(word|other|self|table)\b", "x", body)


def main(top):
    alike = collections.defaultdict(list)
    for path in sorted(glob.glob(top + "/crates/*/src/**/*.rt", recursive=True)):
        text = re.sub(r"//[^\n]*", "", open(path).read())
        for name, body in bodies(text):
            alike[shape(body)].append(path.split("/crates/")[1] + ": " + name)
    for body, names in alike.items():
        if len(names) > 1:
            print(len(names), body[:100])
            for name in names:
                print("    ", name)


main(sys.argv[1] if len(sys.argv) > 1 else ".")
