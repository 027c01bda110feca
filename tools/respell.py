#!/usr/bin/env python3
"""Writes the repository's own definitions and lemmas in snake case, as today's Rattle spells words.

usage: tools/respell.py            at the top of a tree in which port.py of today's Rattle has just run

It derives the names from the tree: each word of specs/ and proofs/ that begins with a small letter and has a capital behind a small
letter or a digit. A fact keeps its capital (some_IsFirst), strings stay, and so does src/ but for ghost lines, clauses and comments,
since no name of Rattle source has this form. A lemma that would have the name of a definition gets `_lem`. A second run changes nothing.
"""
import collections
import glob
import re

WORD = r"[^\s(){}.;,@\"«»\[\]\\`]+"
TOKEN = re.compile(r"\"(?:[^\"\\\n]|\\.)*\"|" + WORD)
CAMEL = re.compile(r"[a-z0-9][A-Z]")
SPECIAL = {"getD-every": "get_or-every"}  # std's getD is get_or today


def part_of(part):
    if re.match(r"[a-z]", part) and CAMEL.search(part):
        return re.sub(r"(?<=[a-z0-9])[A-Z]", lambda m: "_" + m[0].lower(), part)
    return part


def snake(word):
    if word in SPECIAL:
        return SPECIAL[word]
    return "-".join("_".join(part_of(p) for p in dashed.split("_")) for dashed in word.split("-"))


def files(end):
    return sorted(f for f in glob.glob(f"crates/**/*{end}", recursive=True) if "/out/" not in f)


def plain(text):
    return re.sub(r"--[^\n]*|\"(?:[^\"\\\n]|\\.)*\"", " ", text)


def main():
    antt = files(".antt")
    texts = {f: open(f, encoding="utf-8").read() for f in antt + files(".rt")}
    words = {w for f in antt for w in re.findall(WORD, plain(texts[f])) if CAMEL.search(w)}
    new = {w: snake(w) for w in words if snake(w) != w and re.match(r"[a-z]", w)}
    by_new = collections.Counter(new.values())
    assert not [w for w, n in by_new.items() if n > 1], "two names fall together"
    declared, fields = collections.defaultdict(set), collections.defaultdict(set)
    for f in antt:
        for block in re.findall(r"(?ms)^ *(?:pub )?record \S+.*?\bwhere$.*?(?=\n\n|\Z)", plain(texts[f])):
            fields[f].update(re.findall(r"(?m)^ +(?:pub )?(" + WORD + r") : ", block))
    for f in antt:
        for w in re.findall(r"(?m)^ *(?:pub )?(" + WORD + r") : ", plain(texts[f])):
            if w in by_new and w not in fields[f]:
                declared[w].add(f)
    lemmas = {w: w + "_lem" for w, at in declared.items() if not all(f.split("/")[2] == "specs" for f in at)}

    def turned(path, text):
        def one(found):
            word = found[0]
            if word.startswith('"'):
                return word
            if word in new:
                return new[word]
            before = text[found.start() - 1 : found.start()]
            if path.endswith(".antt") and word in lemmas and word not in fields[path] and before != ".":
                line = text[text.rfind("\n", 0, found.start()) + 1 : found.start()]
                behind = text[found.end() : text.find("\n", found.end())]
                is_field = behind.startswith(" = ") and (behind.endswith(";") or re.search(r"[{;] $", line))
                if not line.lstrip().startswith("--") and not is_field:
                    return lemmas[word]
            return word

        return TOKEN.sub(one, text)

    changed = 0
    for path, text in texts.items():
        after = turned(path, text)
        if after != text:
            changed += 1
            with open(path, "w", encoding="utf-8") as out:
                out.write(after)
    print(f"{len(new)} names, {len(lemmas)} lemmas beside a definition of their name ({', '.join(sorted(lemmas))}); {changed} files changed")


if __name__ == "__main__":
    main()
