#!/usr/bin/env python3
"""Turns this repository's own names in definitions, lemmas and clauses to the spelling of today's Rattle: words in snake case, types in camel case.

usage: python3 tools/respell.py          at the top of the repository, once, after the kit's port.py and before any edit by hand

A name that is defined in specs/ or proofs/ of a crate and has a hyphen is respelled wherever it is cited: in .antt files, in clauses and
`ghost use` lines of .rt files, and in back-ticks of comments and pages. Names of the kit's library keep their spelling. Names that the checker
makes (steps of a proof's walk) have the functions' names as src/ spells them. Functions, strings, inputs and outputs are left alone.
"""
import collections
import glob
import os
import re
import sys

TOKEN = re.compile(r"(?<![\w'◌·-])[^\W\d_][\w']*(?:-[\w']+)+")
CRATES = sorted(os.path.basename(os.path.dirname(p)) for p in glob.glob("crates/*/src"))
OWN = re.compile(r"Rattle\.(%s)\." % "|".join(CRATES))
USE = re.compile(r"\s*(?:pub )?(?:ghost )?use ([\w.·'-]+)\.\{(.*)\}")
HEADED = re.compile(r"^\s*(?:abbrev |unfoldable )?(?:pub )?(?:record|data) ([^\W\d_][\w'-]*)")
WALK = re.compile(r"/proofs/.*/(Answers|Invariants|Proof)\.antt$")
GOAL = re.compile(r"^(?:pub )?([\w'-]+) : goal\.")
DEFINED = re.compile(r"(?:^|[\s({\[])(?:pub )?((?:[^\W\d_][\w'-]* )*[^\W\d_][\w'-]*) :(?!:)")
# functions of the library that walks of ours call, and words of the checker's names
LIBRARY = "from_le_bytes to_le_bytes copy_from_slice copy_within extend_from_slice from_slice from_str push_str as_str as_bytes as_slice unwrap_or saturating_add saturating_sub checked_add checked_sub from_residual from_utf8 split_at starts_with is_empty with_capacity strip_prefix split_once count_ones from_fn overflow_add overflow_sub overflow_mul slice_bounds offset_bounds start_le_end dest_in_bounds not_exhausted in_bounds type_inv well_formed".split()


def comment_at(line, ending):
    """Where a line's comment begins."""
    mark = "//" if ending == ".rt" else "--"
    at = 0
    while True:
        at = line.find(mark, at)
        if at < 0:
            return len(line)
        if ending == ".rt" and line[:at].count('"') % 2 == 0:
            return at
        if ending == ".antt" and (at == 0 or line[at - 1] in " \t") and line[at : at + 3] in ("-- ", "--\n", "--"):
            return at
        at += 2


def camel(name):
    return "".join(p[:1].upper() + p[1:] for p in name.replace("_", "-").split("-"))


def spelled(name):
    return camel(name) if name[0].isupper() else name.replace("-", "_")


def sources():
    return [f for f in sorted(glob.glob("crates/*/**/*", recursive=True)) if f.endswith((".antt", ".rt")) and "/out/" not in f]


def is_walk(f):
    """Whether a file answers goals or gives invariants: most names there are the checker's."""
    return WALK.search(f) is not None


def read_names():
    """The names to respell, and the functions' names as hyphened words."""
    foreign, defined, functions = set(), set(), set(LIBRARY)
    for f in sources():
        ending = os.path.splitext(f)[1]
        with open(f, encoding="utf-8") as it:
            for line in it:
                code = line[: comment_at(line, ending)]
                m = USE.match(code)
                if m and not OWN.match(m.group(1)):
                    foreign.update(TOKEN.findall(m.group(2)))
                elif ending == ".antt" and not m and not is_walk(f):
                    for name in HEADED.findall(code):
                        defined.update({name} if "-" in name else ())
                    for names in DEFINED.findall(code):
                        defined.update(t for t in names.split() if "-" in t)
                if m and not is_walk(f):
                    defined.update(t for t in re.findall(r"\bas ([\w'-]+)", code) if "-" in t)
                if ending == ".rt":
                    functions.update(re.findall(r"\bfn (\w+)", code))
                    functions.update(re.findall(r"\blet (?:mut )?(\w+)", code))
                    functions.update(re.findall(r"\bconst (\w+)", code))
    return foreign, defined - foreign, {x.replace("_", "-"): x for x in functions if "_" in x.strip("_")}


def made(token, functions):
    """A name that the checker makes: parts that are a function's name get its underscores."""
    parts, out, i = token.split("-"), [], 0
    while i < len(parts):
        for j in range(len(parts), i + 1, -1):
            word = "-".join(parts[i:j])
            if word in functions:
                out.append(functions[word])
                i = j
                break
        else:
            out.append(parts[i])
            i += 1
    return "-".join(out)


def turn(names, functions, foreign):
    def respell(m):
        t = m.group()
        return spelled(t) if t in names else t

    for f in sources() + sorted(glob.glob("docs/*.md")) + ["README.md"]:
        ending = os.path.splitext(f)[1]
        with open(f, encoding="utf-8") as it:
            text = it.read()
        out = []
        goals = {m.group(1) for line in text.splitlines() if (m := GOAL.match(line))}
        for line in text.splitlines(keepends=True):
            at = 0 if ending == ".md" else comment_at(line, ending)
            code, rest = line[:at], line[at:]
            if ending == ".rt":
                pieces = re.split(r'("(?:[^"\\]|\\.)*")', code)
                code = "".join(p if p.startswith('"') else TOKEN.sub(respell, p) for p in pieces)
            elif is_walk(f):
                checkers = re.match(r"use [\w.]*\.(Goals|Given|Lts)\b", code) is not None

                def walk(m):
                    t = m.group()
                    if checkers or t in goals or code[: m.start()].endswith("goal."):
                        return made(t, functions)
                    return spelled(t) if t in names else t if t in foreign else made(t, functions)

                code = re.sub(r"\.-(?=[^\W\d_])", "._", TOKEN.sub(walk, code))
            elif ending == ".antt":
                code = TOKEN.sub(lambda m: m.group() if m.group() in foreign else spelled(m.group()), code)
            else:
                code = TOKEN.sub(respell, code)
            rest = re.sub(r"`[^`]*`", lambda m: TOKEN.sub(respell, m.group()), rest)
            out.append(code + rest)
        new = "".join(out).replace("′", "'") if ending != ".md" else "".join(out)
        if new != text:
            with open(f, "w", encoding="utf-8") as it:
                it.write(new)


def collisions(names):
    """Names that would fall together: with one another, or with a name that stands already."""
    by = collections.defaultdict(set)
    for n in names:
        by[spelled(n)].add(n)
    for to, froms in sorted(by.items()):
        if len(froms) > 1:
            print("look: fall together:", *sorted(froms))
    for f in sources():
        with open(f, encoding="utf-8") as it:
            text = it.read()
        words = set(re.findall(r"[^\W\d_][\w'-]*", text))
        for n in sorted(set(TOKEN.findall(text)) & names):
            if spelled(n) in words:
                print(f"look: {f}: {n} and {spelled(n)} both stand here")


if __name__ == "__main__":
    foreign, names, functions = read_names()
    if not names:
        sys.exit("nothing to respell")
    collisions(names)
    if "--look" not in sys.argv:
        turn(names, functions, foreign)
        print(f"{len(names)} names respelled")
