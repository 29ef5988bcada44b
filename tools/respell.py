#!/usr/bin/env python3
"""Respells the repository's own definitions and lemmas, once, after Rattle's port script: words in snake case,
types and facts in upper camel case as they were, a dash only between two names ('length-new_map', but 'kind_within').

usage: python3 tools/respell.py [--dry]     at the top of the repository

It goes by text. A name is turned where the repository's specs/ or proofs/ define it, in the file that defines it and in
those that import it; names that would fall together get the ending '_lem', and are listed. With --dry it lists the names and
writes nothing. A file ZzEdit*.antt or zzedit*.rt is a file of its crate with a must-fail edit applied: it is turned by the
names of the others, so that what differs from its neighbour is the edit in the new spelling.
"""
import glob
import re
import sys

WORD = r"[A-Za-z0-9_'\u2032?\u03ba\u2080-\u2089-]+"
TOKEN = re.compile(r"(?<![A-Za-z0-9_'?-])[A-Za-z][A-Za-z0-9_'?\u2080-\u2089-]*")
HEAD = re.compile(r"^( *)((?:pub |unfoldable |abbrev |private )*)([A-Za-z][A-Za-z0-9_'?-]*)(?=\s(?:[^=\n:]|:(?!=))*:(?:\s|$))", re.M)
RULESET = re.compile(r"^( *)(?:pub )?ruleset ([A-Za-z][A-Za-z0-9_'?-]*)", re.M)
RECORD = re.compile(r"^( *)(?:pub )?(?:record|data) ([A-Za-z][A-Za-z0-9_'?-]*)", re.M)
USE = re.compile(r"use (Rattle\.[A-Za-z0-9_.+]+)\.\{([^}]*)\}")


def snake(word):
    """A lower camel word in snake case; an upper camel word (a fact or a type) stays."""
    if not re.match(r"[a-z]", word):
        return word
    return re.sub(r"(?<=[a-z0-9'])([A-Z])", lambda m: "_" + m.group(1).lower(), word)


def code(text):
    """The text without comments."""
    return re.sub(r"(?m)(^|\s)--.*$", "", text)


def defined(text):
    names = set(m.group(3) for m in HEAD.finditer(text))
    names |= set(m.group(2) for m in RULESET.finditer(text))
    return names


def main(dry):
    specs = sorted(glob.glob("crates/*/specs/**/*.antt", recursive=True))
    lemmas = sorted(glob.glob("crates/*/proofs/*.antt"))
    walks = sorted(glob.glob("crates/*/proofs/*/**/*.antt", recursive=True))
    sources = sorted(glob.glob("crates/*/src/**/*.rt", recursive=True))
    text = {f: open(f, encoding="utf-8").read() for f in specs + lemmas + walks + sources}

    edited = lambda f: "/ZzEdit" in f or "/zzedit" in f
    spec_names, lemma_names = set(), set()
    for f in specs:
        if not edited(f):
            spec_names |= defined(text[f])
    for f in lemmas:
        if not edited(f):
            lemma_names |= defined(text[f])
    lemma_names -= spec_names

    # what stands on either side of a dash that stays: definitions of the repository, and words that its files import
    names = set(snake(n) for n in spec_names)
    foreign = set()
    for f in specs + lemmas + walks:
        for m in re.finditer(r"use ([A-Za-z][A-Za-z0-9_.+]*)\.\{([^}]*)\}", text[f]):
            if not m.group(1).startswith("Rattle.") or m.group(1).startswith("Rattle.std."):
                foreign |= set(x.strip().split(" as ")[-1] for x in m.group(2).split(","))
    names |= set(n for n in foreign if re.match(r"[A-Za-z]", n) and "-" not in n)
    for f in specs:
        names |= set(m.group(2) for m in RECORD.finditer(text[f]))

    def turned(name):
        parts = [snake(p) for p in name.split("-")]
        if len(parts) == 1:
            return parts[0]
        # the longest names first; words that are none attach by '_'
        segments, i = [], 0
        while i < len(parts):
            for j in range(len(parts), i, -1):
                joined = "_".join(parts[i:j])
                if joined in names or j == i + 1:
                    segments.append((joined, joined in names))
                    i = j
                    break
        out, last = segments[0]
        for word, named in segments[1:]:
            out += ("-" if last and named else "_") + word
            last = named
        return out

    turn = {}
    for n in sorted(spec_names | lemma_names):
        t = turned(n)
        if t != n:
            turn[n] = t

    # fields of a record of equations beside the record itself
    for n in ["free-pages", "first-run", "min-shift", "page-shift"]:
        turn[n] = "same_" + n.replace("-", "_")
    turn["freePages"], turn["firstRun"] = "free_pages", "first_run"
    settled = {"freePages", "firstRun"}
    fields = set()
    for f in specs:
        for m in re.finditer(r"(?m)^(?:pub )?record .*\n((?:[ ]+.*\n|\n)+)", text[f]):
            fields |= set(h.group(3) for h in HEAD.finditer(m.group(1)))

    # the names of the repository that a file defines or imports
    scope = {}
    for f in text:
        own = defined(text[f]) if f.endswith(".antt") and f not in walks else set()
        for m in USE.finditer(text[f]):
            path = m.group(1)
            if re.match(r"Rattle\.[a-z0-9_]+\.(specs\.(?!declared|contracts)|proofs\.[A-Z])", path) and not path.startswith("Rattle.std."):
                for x in m.group(2).split(","):
                    own.add(x.strip().split(" as ")[0])
                    own.add(x.strip().split(" as ")[-1])
        scope[f] = own & (spec_names | lemma_names)

    def others(f):
        """Words of the file that a turned name must differ from: in antt all but paths, in a source those that are bound there."""
        if f.endswith(".rt"):
            t = re.sub(r"(?m)//.*$", "", text[f])
            t = re.sub(r"(?ms)^(?:pub )?ghost use .*?;", " ", t)
            return set(re.findall(r"(?<![:\w])([a-z_][a-z0-9_]*)\s*:(?!:)", t)) | set(re.findall(r"\blet (?:mut )?([a-z_]\w*)", t))
        t = re.sub(r"(?m)^(\s*(?:pub )?use )[^{\n]*(\{?)", r"\1\2", code(text[f]))
        return set(TOKEN.findall(re.sub(r"\.[A-Za-z][A-Za-z0-9_'?-]*", " ", t))) - scope[f] - fields

    # names that would fall together: a lemma or a record's field gives way to a definition, by the ending '_lem'
    said = set()
    for _ in range(4):
        before = dict(turn)
        for f in text:
            if edited(f):
                continue
            present, new = others(f), {}
            for old in sorted(scope[f], key=lambda n: (n in lemma_names, n in fields, "-" in n, n)):
                to = turn.get(old, old)
                if old in settled:
                    new[to] = old
                elif to in new or (to != old and to in present):
                    with_ = new.get(to, "a word of the file")
                    if (old, to) not in said:
                        said.add((old, to))
                        print(f"together: {old} -> {to} with {with_}{'' if old in lemma_names else ', a definition'} in {f}")
                    if before.get(old, old) == to:
                        turn[old] = to + "_lem"
                else:
                    new[to] = old
        if turn == before:
            break

    changed = 0
    moved = fields & set(turn)
    # a field is named without an import too, by a projection and in a record
    projected = re.compile(r"([A-Za-z0-9_'()\u2080-\u2089.-]*\.)([A-Za-z][A-Za-z0-9_'?-]*)")
    given = re.compile(r"([{;]\s*(?:--[^\n]*\n\s*)?)([A-Za-z][A-Za-z0-9_'?-]*)(?= = )")
    for f in text:
        known = scope[f] & set(turn)

        def one(m):
            w = m.group(0)
            return turn[w] if w in known else w

        def by_dot(m):
            chain, w = m.group(1), m.group(2)
            walked = re.match(r"(c|w)\.", chain) or ".before" in chain or "ensures" in chain
            return chain + turn[w] if w in moved and ("-" not in w or not walked) else m.group(0)

        new = TOKEN.sub(one, text[f])
        if f.endswith(".antt") or moved:
            new = projected.sub(by_dot, new)
            new = given.sub(lambda m: m.group(1) + turn[m.group(2)] if m.group(2) in moved else m.group(0), new)
        if new != text[f]:
            changed += 1
            if not dry:
                open(f, "w", encoding="utf-8").write(new)
    print(f"respelled: {len(turn)} names in {changed} files")
    if dry:
        print("\n".join(f"{n} {turn[n]}" for n in sorted(turn)))


if __name__ == "__main__":
    main("--dry" in sys.argv[1:])
