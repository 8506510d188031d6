#!/usr/bin/env python3
"""Respells the names that this repository's own specs/ and proofs/ declare: facts and types in upper camel case, all else in snake case.

usage: python3 tools/respell.py          at the top of the repository: rewrites the files in place
       python3 tools/respell.py --list   prints each old and new name, and what falls together

A name is respelled where a file of specs/, or a file of lemmas in proofs/, declares it with a dash. Names of the source (src/), of std and of generated goals stay.
"""
import glob
import os
import re
import sys

PART = r"[^\s(){}\[\];,.⌜⌝\"«»]+"
DECLARED = [
    re.compile(r"^\s*(?:abbrev\s+|unfoldable\s+)?(?:pub\s+)?(?:data|record|ruleset)\s+(?:pub\s+)?(%s)" % PART),
    re.compile(r"^\s*(?:abbrev\s+|unfoldable\s+|mutual\s+)?(?:pub\s+)?((?:%s\s+)*?%s)\s+:(?:\s|$)" % (PART, PART)),
]
KEYWORDS = {"use", "mod", "module", "pub", "abbrev", "unfoldable", "mutual", "where", "let", "in", "elim", "data", "record"}


def files(*kinds):
    for folder, dirs, names in os.walk("crates"):
        dirs[:] = sorted(d for d in dirs if d != "out")
        for name in sorted(names):
            path = os.path.join(folder, name)
            if name.endswith(kinds):
                yield path


def own(path):
    """A file of definitions or lemmas, or answers beside which a lemma may stand."""
    return path.endswith(".antt")


def is_goal(line):
    return re.search(r":\s*(goal|given|Goals|Given|goals)\.", line) is not None


def declared(path):
    for line in open(path, encoding="utf-8"):
        if line.lstrip().startswith("--") or is_goal(line):
            continue
        # fields of a record term or a let in a body are no declarations
        if re.match(r"^\s*(let|λ|in|\|)\s", line):
            continue
        for form in DECLARED:
            m = form.match(line)
            if m:
                for name in m.group(1).split():
                    if name not in KEYWORDS:
                        yield name, line.rstrip("\n")
                break


def imported_from_std():
    """Names that a `use` takes from outside the repository's own crates."""
    own_crates = "|".join(sorted(os.listdir("crates")))
    foreign = re.compile(r"use (?!Rattle\.(?:%s)\.)[^{;\n]*\{([^}]*)\}" % own_crates)
    names = set()
    for path in files(".antt", ".rt"):
        text = open(path, encoding="utf-8").read()
        for m in foreign.finditer(text):
            for item in m.group(1).split(","):
                names.add(item.split(" as ")[0].strip())
    return names


def is_answer(path):
    return os.path.basename(path) in ("Answers.antt", "Invariants.antt", "Choices.antt")


def local_names(path):
    """Parameters, variables and names that a `use` gives, in a file of definitions or lemmas."""
    text = re.sub(r"--[^\n]*", "", open(path, encoding="utf-8").read())
    for name in re.findall(PART, text):
        if re.match(r"[A-Za-z][A-Za-z0-9']*[-_][A-Za-z]", name):
            yield name


# Names that would fall together with a struct of the source, and lemmas that would have the name of the function whose contract they prove.
SPECIAL = {
    "Pattern-read": "PatternIsRead",
    "Parameters-read": "ParametersAreRead",
    "accepted-exactly": "accepted_exactly_lem",
    "refused-exactly": "refused_exactly_lem",
    "bad-words-are-within": "bad_words_are_within_lem",
    "no-more-words-than-bytes": "no_more_words_than_bytes_lem",
    "places-rise": "places_rise_lem",
    "words-are-spelled": "words_are_spelled_lem",
}


def respelled(name):
    if name in SPECIAL:
        return SPECIAL[name]
    if re.match(r"^[A-Z]", name):
        head, *rest = re.split("[-_]", name)
        return head + "".join(p[:1].upper() + p[1:] for p in rest)
    return name.replace("-", "_")


def main():
    std = imported_from_std()
    table = {}
    seen = set()
    for path in files(".antt"):
        if not own(path):
            continue
        for name, line in declared(path):
            seen.add(name)
            if "-" in name and re.match(r"^[A-Za-z∷]", name) and name not in std:
                table.setdefault(name, (respelled(name), path, line.strip()))
        if not is_answer(path):
            for name in local_names(path):
                if name not in std and ("-" in name or re.match(r"[A-Z][a-z]*_", name)):
                    table.setdefault(name, (respelled(name), path, name))
    old_tokens = set()
    for path in files(".antt", ".rt"):
        old_tokens.update(re.findall(PART, open(path, encoding="utf-8").read()))
    clash = {n: v for n, v in table.items() if v[0] in old_tokens or v[0] in std}
    new = {}
    for n, v in table.items():
        new.setdefault(v[0], []).append(n)
    same = {k: v for k, v in new.items() if len(v) > 1}
    if "--list" in sys.argv:
        for n, v in sorted(table.items()):
            print(n, "->", v[0], "   ", v[1], ":", v[2][:110])
        print("falls together with a name that stands already:", len(clash))
        for n, v in sorted(clash.items()):
            print("  ", n, "->", v[0], v[1])
        print("two names become one:", same)
        return
    swap = {n: v[0] for n, v in table.items()}
    token = re.compile(PART)
    quoted = re.compile(r"`[^`\n]+`")
    count = 0
    pages = ["README.md", *glob.glob("docs/*.md")]
    for path in [*files(".antt", ".rt", ".edit"), *pages]:
        text = open(path, encoding="utf-8").read()
        if path in pages:
            fresh = quoted.sub(lambda q: token.sub(lambda m: swap.get(m.group(0), m.group(0)), q.group(0)), text)
        else:
            fresh = token.sub(lambda m: swap.get(m.group(0), m.group(0)), text)
        if fresh != text:
            open(path, "w", encoding="utf-8").write(fresh)
            count += 1
    print(f"respell: {len(swap)} names, {count} files")


if __name__ == "__main__":
    main()
