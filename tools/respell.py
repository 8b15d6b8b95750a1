#!/usr/bin/env python3
"""Spells this repository's own definitions and lemmas as today's Rattle does: words in snake case, types and modules in upper camel case.

usage: tools/respell.py [FOLDER]     once, behind the kit's port.py; FOLDER is the repository (default: where it stands)

What is respelled is what the files of specs/ and proofs/ declare: definitions, lemmas, fields and constructors. A name that a library declares too
stays in a file that takes it from there. Functions of src/, exported names, strings, inputs and outputs are not touched.
It refuses to write where two names would fall together, and prints how many names and places it turned.
"""
import collections
import glob
import os
import re
import sys

TOP = sys.argv[1] if len(sys.argv) > 1 and sys.argv[1] != "--dry" else os.path.join(os.path.dirname(os.path.abspath(__file__)), "..")
NAME = r"[^\s(){}\[\].;,@\"«»]+"
HEAD = re.compile(rf"^(?P<indent> *)(?:(?:abbrev|unfoldable|opaque|pub|private) )*(?P<kind>record |data |ruleset )?(?:pub )?(?P<name>{NAME})(?= (?:[({{:]))")
WORDS = re.compile(rf"\.?{NAME}")
USE = re.compile(r"^(?:ghost )?use ([^\s;{]+)(\{[^}]*\})?(?: as ([^\s;]+))?", re.M)
# What would meet another name all the same.
APART = {
    "oneMore": "one_more_missed", "saysNothing": "saying_nothing", "plainCopy": "copying_plainly", "byNumber": "matched_by_number",
    "partIn": "part_carried", "readOut": "reading_out", "laidBy": "laid_out_by", "leftBy": "left_over_by", "leftIn": "left_over_in",
    "readNumber": "number_read", "isUp": "stands_up", "ofThree": "of_three_header", "ofSix": "of_six_header", "cameUp": "coming_up",
    "cameUp3": "coming_up3", "wholeTwice": "twice_whole", "sizeFits": "fits_in_size", "asOne": "as_one_word", "byForm": "ByForm",
}
KEYWORDS = {"use", "let", "where", "in", "pub", "abbrev", "record", "data", "unfolding", "infix", "infixl", "infixr", "mod", "syntax"}


def paths():
    for pattern in ("crates/*/specs/**/*.antt", "crates/*/proofs/**/*.antt", "crates/*/src/**/*.rt"):
        yield from sorted(p for p in glob.glob(os.path.join(TOP, pattern), recursive=True) if "/out/" not in p)


def code(line):
    """The line without its comment."""
    at = re.search(r"(^|\s)--(\s|$)", line)
    return line if at is None else line[: at.start()]


def declared():
    """Name -> set of the files that declare it; and the fields among them."""
    names, fields = collections.defaultdict(set), set()
    for p in paths():
        if not p.endswith(".antt") or "/specs/" not in p and os.path.basename(os.path.dirname(p)) != "proofs" and not p.endswith("/Proof.antt"):
            continue
        within = False
        for line in open(p, encoding="utf-8"):
            line = code(line.rstrip("\n"))
            if not line.strip():
                continue
            m = HEAD.match(line)
            if not line.startswith(" "):
                within = bool(re.match(r"(pub |private )*(record|data) ", line))
                if m and m["name"] not in KEYWORDS and (": " in line or line.endswith(":") or m["kind"]):
                    names[m["name"]].add(p)
            elif within and re.match(r"^  (pub )?\S+ :", line):
                name = line.split(" :")[0].split()[-1]
                names[name].add(p)
                fields.add(name)
    return names, fields


def respelled(name, is_type):
    if "◌" in name or not re.search(r"[A-Z-]", name):
        return name
    if is_type:
        return "".join(w[:1].upper() + w[1:] for w in name.split("-"))
    if name[0].isupper():
        # a dash joins a type to a word
        return name
    words = re.sub(r"(?<=[a-z0-9])(?=[A-Z])|(?<=[A-Z])(?=[A-Z][a-z])", "_", name)
    return words.replace("-", "_").lower()


def types():
    found = set()
    for p in paths():
        if p.endswith(".antt"):
            for m in re.finditer(rf"^(?:pub |private )*(?:record|data) ({NAME})", open(p, encoding="utf-8").read(), re.M):
                found.add(m[1])
    return found


def main():
    own, fields = declared()
    of_types = types()
    table = {n: respelled(n, n in of_types) for n in own}
    table = {o: n for o, n in table.items() if o != n}
    crates = {p.split("/")[-1] for p in glob.glob(os.path.join(TOP, "crates/*"))}

    def of_library(path):
        steps = path.strip(".").split(".")
        return not (steps[0] == "Rattle" and len(steps) > 1 and steps[1] in crates or steps[0] in ("package",))

    # A dash stays where its underscore would meet another word in some file.
    words, taken = {}, {}
    for p in paths():
        text = open(p, encoding="utf-8").read()
        words[p] = {w.lstrip(".") for w in WORDS.findall(re.sub(rf"Rattle(\\.{NAME})+", "", text))} if p.endswith(".antt") else set()
        taken[p] = set()
        for m in USE.finditer(text):
            if of_library(m[1]):
                taken[p].update(re.findall(NAME, m[2] or "") or [m[1].strip(".").split(".")[-1]])
    table.update({o: APART[o] for o in APART if o in own})
    stays = set()
    for dashed in (True, False):
        for p, had in words.items():
            into = collections.defaultdict(set)
            for w in had:
                into[w if w in taken[p] or w in stays else table.get(w, w)].add(w)
            for meet in into.values():
                stays |= {w for w in meet if len(meet) > 1 and "-" in w and w in table} if dashed else set()
                if not dashed and len(meet) > 1 and not meet <= stays:
                    print("clash:", os.path.relpath(p, TOP), *sorted(meet))
    for w in stays:
        del table[w]
    print(len(stays), "dashes stay")

    texts, turned = {}, collections.Counter()
    for p in paths():
        text = open(p, encoding="utf-8").read()
        uses = list(USE.finditer(text))
        from_library, aliases = set(), set()
        for m in uses:
            items = re.findall(NAME, m[2] or "") or [m[1].strip(".").split(".")[-1]]
            if of_library(m[1]):
                from_library.update(items)
            elif m[2] is None or m[3]:
                aliases.add(m[3] or m[1].split(".")[-1])
        generated = re.search(r"/proofs/.+/(Proof|Answers|Invariants)\.antt$", p) is not None

        def turn(m):
            word = m[0]
            dot = word.startswith(".")
            name = word[1:] if dot else word
            if name not in table or name in from_library:
                return word
            if dot:
                before = text[: m.start()]
                line = before[before.rfind("\n") + 1:]
                head = re.search(rf"({NAME}(?:\.{NAME})*)$", line)
                heads = head[1].split(".") if head else [")"]
                is_path = heads[0] == "Rattle" or heads[-1] in aliases or re.match(r"^\s*(ghost )?use ", line)
                if not is_path and name not in fields:
                    return word
                if generated and not is_path and heads[0] in ("c", "c'", "l", "w", "tie"):
                    return word
            turned[name] += 1
            return ("." if dot else "") + table[name]

        if p.endswith(".rt"):
            # clauses and imports of ghosts alone
            def respell_in_clause(m):
                name = m[0].lstrip(".")
                if name not in table or name in from_library:
                    return m[0]
                turned[name] += 1
                return m[0].replace(name, table[name])

            def clause(m):
                return WORDS.sub(respell_in_clause, m[0])

            new = re.sub(r"(?ms)^ghost use [^;]*;", clause, text)
            new = re.sub(r"(?ms)^ *(?:requires|ensures)\*?(?: \w+)? \{.*?\}(?=\n)", clause, new)
            new = re.sub(r"(?m)^ *(?:ghost|invariant) .*$", clause, new)
        else:
            # comments keep their words
            lines, new_lines, pos = text.split("\n"), [], 0
            for line in lines:
                c = code(line)
                base = pos
                seg = text[base: base + len(c)]
                res, at = [], 0
                for m in WORDS.finditer(text, base, base + len(c)):
                    res.append(text[base + at: m.start()])
                    res.append(turn(m))
                    at = m.end() - base
                res.append(text[base + at: base + len(c)])
                new_lines.append("".join(res) + line[len(c):])
                pos += len(line) + 1
            new = "\n".join(new_lines)
        if new != text:
            texts[p] = new
    print(f"{len(table)} names, {sum(turned.values())} places, {len(texts)} files")
    if "--dry" in sys.argv:
        return
    for p, t in texts.items():
        with open(p, "w", encoding="utf-8") as f:
            f.write(t)


main()
