#!/usr/bin/env python3
"""Brings the must-fail edits whose text no longer stands to the spelling that port.py and tools/respell.py gave the files.

usage: tools/turn_edits.py        run once, at the top, after both

An 'old:' text is found in the file again by what stays of it without spaces, parentheses, underscores, dashes and case; the
'new:' text gets the same change in it. What it can't place it prints, to be turned by hand.
"""
import glob
import os
import re

ROOT = os.path.dirname(os.path.dirname(os.path.realpath(__file__)))


def plain(text):
    """The text, the letters of it that stay, and the place of each in it."""
    text = text.replace("getD", "get_or")
    kept = [(c.lower(), i) for i, c in enumerate(text) if c not in " ()_-«»"]
    return text, "".join(c for c, _ in kept), [i for _, i in kept]


def spelled(text):
    """The text in today's spelling."""
    text = re.sub(r" \.(?=[\w«])", ".", text)
    text = re.sub(r"\.«(\w+)»", r".\1", text)
    text = text.replace("getD", "get_or")
    text = re.sub(r"(?<![\w'])([a-z][a-z0-9]*(?:[A-Z][a-z0-9]*)+)(?![\w'])", lambda m: re.sub(r"[A-Z]", lambda u: "_" + u[0].lower(), m[1]), text)
    text = re.sub(r"(?<![\w])_([+*%^≤<≡-]+|/)_(?!\w)", r"◌\1◌", text)
    return re.sub(r"\(([a-z]\.\w+(?:\.\w+)*)\)", r"\1", text)


def main():
    for edit in sorted(glob.glob(os.path.join(ROOT, "crates", "*", "must-fail", "*.edit"))):
        crate = os.path.dirname(os.path.dirname(edit))
        out, file, old, texts, changed = [], None, None, {}, False
        for line in open(edit, encoding="utf-8").read().split("\n"):
            if line.startswith("file: "):
                file = os.path.join(crate, line[6:].strip())
                texts.setdefault(file, open(file, encoding="utf-8").read())
            elif line.startswith("old: "):
                old, was = line[5:], len(out)
            elif line.startswith("new: ") and texts[file].count(old) != 1:
                new = line[5:]
                lines = [l for l in texts[file].split("\n") if plain(old)[1] in plain(l)[1]]
                if len(lines) != 1 or old.startswith("use "):
                    print(f"by hand: {os.path.relpath(edit, ROOT)}: {len(lines)} lines have: {old}")
                    out.append(line)
                    continue
                here, letters, places = plain(lines[0])
                at = letters.index(plain(old)[1])
                end = at + len(plain(old)[1])
                first = 0 if at == 0 else places[at]
                last = len(here) if end == len(letters) else places[end - 1] + 1
                turned = here[first:last]
                # what the edit changes, between what both texts share
                head = os.path.commonprefix([old, new])
                head = head[: len(head) - len(re.search(r"[\w.«»]*$", head)[0])]
                tail = os.path.commonprefix([old[len(head):][::-1], new[len(head):][::-1]])[::-1]
                tail = tail[len(re.match(r"[\w.«»]*", tail)[0]):]
                _, l, p = plain(turned)
                a = len(plain(head)[1])
                b = len(l) - len(plain(tail)[1])
                start = p[a] if a < len(p) else len(turned)
                stop = p[b - 1] + 1 if b > a else start
                made = turned[:start] + spelled(new[len(head): len(new) - len(tail)].strip()) + turned[stop:]
                out[was] = "old: " + turned
                line = "new: " + made
                changed = True
                texts[file] = texts[file].replace(turned, made)
            elif line.startswith("new:") and file:
                texts[file] = texts[file].replace(old, line[5:])
            out.append(line)
        if changed:
            open(edit, "w", encoding="utf-8").write("\n".join(out))
            print("turned:", os.path.relpath(edit, ROOT))
    return 0


if __name__ == "__main__":
    raise SystemExit(main())
