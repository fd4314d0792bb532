#!/usr/bin/env python3
"""Follows the relative links of README and the documents: each file, and each anchor of a document, has to be there.

  docs/check_links.py [DOCUMENT]..

The status is 1 where a link leads nowhere. Links in code blocks and code spans aren't looked at.
"""
import glob
import os
import re
import sys

TOP = os.path.dirname(os.path.dirname(os.path.abspath(__file__)))
INLINE = re.compile(r"\]\(([^()\s]+)\)")
LABELLED = re.compile(r"^\[([^\]]+)\]: +(\S+)$", re.MULTILINE)
# A label in brackets, as `[crate/File]`, that is neither a link with its own target nor the place where the label is told.
LABEL = re.compile(r"\[([a-z_]+/\w+)\](?![(:])")


def prose(document):
    """The text of a document without its code blocks and code spans."""
    with open(document, encoding="utf-8") as file:
        text = re.sub(r"^```.*?^```", "", file.read(), flags=re.MULTILINE | re.DOTALL)
    return re.sub(r"`[^`\n]*`", "", text)


def anchors(document):
    """The anchors of a document's headings."""
    with open(document, encoding="utf-8") as file:
        text = re.sub(r"^```.*?^```", "", file.read(), flags=re.MULTILINE | re.DOTALL)
    found = {}
    for heading in re.findall(r"^#+ +(.*)$", text, re.MULTILINE):
        plain = re.sub(r"\[([^\]]*)\]\([^)]*\)", r"\1", heading).replace("`", "").strip().lower()
        anchor = re.sub(r"[^\w\- ]", "", plain).replace(" ", "-")
        found[anchor] = found.get(anchor, -1) + 1
    return {name if i == 0 else "%s-%d" % (name, i) for name, most in found.items() for i in range(most + 1)}


def faults(document):
    """What is wrong with each link of a document that leads nowhere."""
    text = prose(document)
    labels = dict(LABELLED.findall(text))
    yield from ("no target of [%s]" % label for label in LABEL.findall(text) if label not in labels)
    for target in INLINE.findall(text) + list(labels.values()):
        path, _, anchor = target.partition("#")
        file = os.path.normpath(os.path.join(os.path.dirname(document), path)) if path else document
        if re.match(r"[a-z]+:", target):
            continue
        if not os.path.exists(file):
            yield "no file " + target
        elif anchor and anchor not in anchors(file):
            yield "no anchor " + target


if __name__ == "__main__":
    documents = sys.argv[1:] or [os.path.join(TOP, "README.md")] + sorted(glob.glob(os.path.join(glob.escape(TOP), "docs", "*.md")))
    told = ["%s: %s" % (os.path.relpath(document, TOP), fault) for document in documents for fault in faults(document)]
    print("\n".join(told + ["%d documents, %d links lead nowhere" % (len(documents), len(told))]))
    sys.exit(1 if told else 0)
