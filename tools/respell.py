#!/usr/bin/env python3
"""Brings the repository's own names in specs/ and proofs/ to today's spelling: once, after port.py.

usage: python3 tools/respell.py [--check]     at the top of the repository; --check writes nothing and lists the table

A definition, a lemma, a field or a constructor of the repository gets snake case (`bigEndian` is `big_endian`, `gap-fill` is `gap_fill`),
a fact or a type upper camel case (`Proper-page` is `ProperPage`). Names that a library has too, functions of src/, labels, strings, inputs and outputs stay.
Six files specs/Contracts.antt are specs/Promises.antt, since Rattle now makes a module `specs.contracts`.
It ends with 1, and writes nothing, where two names would fall together, or a new name is in use already.
"""
import collections, glob, os, re, sys

TOKEN = re.compile(r"[^\s(){}\[\],.;:⌜⌝«»|\"`]+")
DECLARED = re.compile(r"^(\s*)((?:abbrev |unfoldable |pub |opaque )*)([^\s:(){}.,;]+)((?: \{[^}]*\})?) : (.*)$")
HEAD = re.compile(r"^\s*(?:abbrev |pub )*(?:data|record) ([^\s:(){}]+)")
# Facts that had the spelling of a function: the file that declares each, and its name now.
FACTS = {
    "discovery_pages": {"packs": "PacksIn"},
    "discovery_calls": {"holds": "HoldsIn", "took": "TookIn", "dropped": "DroppedIn", "arrival": "ArrivalIn", "called": "CalledIn"},
    "rules": {"exactly": "Exactly"},
}
# Names that would fall together with another one in some file.
APART = {
    "release-said": "release_said_lem",
    "step-number": "step_number_lem",
    "step-values": "step_values_lem",
    "load-number": "load_number_lem",
    "decimal-of": "decimal_of_lem",
    "rest-of": "rest_of_lem",
    "long_of": "long_of_lem",
    "heads-of": "is_head_of",
    "sourcesOf": "listed_sources_of",
    "address-of": "address_at",
}
# Parameters, aliases of modules and names whose type begins on the next line.
MORE = """by-test lent-north lent-south lent-pool most-pairs most-pages most-waiting highest-value pair-laws waiting-laws discovery-laws Goes-ref Goes-dropped
seen-north seen-south end-north end-south waiting-outlives-end two-desks two-desks-swapped three-pages sync-repeats sync-pair-stays sync-pair-goes released-once
refused-merge refused-leaves printed-example own-packet-merges not-listened never-lists limit-count illegal-address first-last-page ends-before-sequence
data-repeats announced-timeout behind-it not-true""".split()
# `head-of` beside `head_of` is the code's function of that name, cited in a proof.
CODE = {"head_of"}
FACT_FILES = {"discovery_pages": "Contracts", "discovery_calls": "Contracts", "rules": "Cid"}


def files(*patterns):
    return sorted(p for q in patterns for p in glob.glob(q, recursive=True) if "/out/" not in p)


def text_of(path):
    with open(path, encoding="utf-8") as f:
        return f.read()


def snake(name):
    name = name.replace("-", "_")
    return re.sub(r"(?<=[a-z0-9])([A-Z])(?=[a-z_]|$)", lambda m: "_" + m.group(1).lower(), name)


def camel(name):
    parts = name.split("-")
    return parts[0] + "".join(p[:1].upper() + p[1:] for p in parts[1:])


def table():
    crates = {l.split(":")[0].split()[0] for l in text_of("crates.txt").splitlines() if l.strip() and not l.startswith("#")}
    own, typed = collections.OrderedDict(), set()
    for p in files("crates/*/specs/**/*.antt", "crates/*/proofs/*.antt"):
        for l in text_of(p).splitlines():
            if l.lstrip().startswith("--"):
                continue
            m = HEAD.match(l) or DECLARED.match(l)
            if m:
                own.setdefault(m.group(1) if m.re is HEAD else m.group(3), p)
    for n in MORE:
        own.setdefault(n, "")
    taken = set()
    for p in files("crates/**/*.antt", "crates/**/*.rt"):
        for m in re.finditer(r"use ([^\s{};]+)\.\{([^}]*)\}", text_of(p)):
            c = m.group(1).split(".")
            if not (c[0] == "Rattle" and len(c) > 1 and c[1] in crates):
                taken |= {n.strip().split(" as ")[0] for n in m.group(2).split(",")}
    new = {}
    for n in own:
        if n in taken or n in ("module", "_") or re.match(r"^[^a-zA-Zℕ]", n):
            continue
        to = APART.get(n) or (camel(n) if n[0].isupper() else snake(n))
        if to != n:
            new[n] = to
    return own, new, taken


def turn_code(line, new):
    return TOKEN.sub(lambda m: new.get(m.group(0), m.group(0)), line)


def comment_at(line, mark):
    """Where the line's comment begins, outside a string."""
    inside = False
    for i, ch in enumerate(line):
        if ch == '"':
            inside = not inside
        if not inside and line.startswith(mark, i) and (mark != "--" or i == 0 or line[i - 1] in " \t"):
            return i
    return len(line)


def turn_line(line, new, mark, used):
    at = comment_at(line, mark)
    code, rest = line[:at], line[at:]
    code = re.sub(r'("(?:[^"\\]|\\.)*")|([^"]+)', lambda m: m.group(1) or turn_code(m.group(2), new), code)
    rest = TOKEN.sub(lambda m: new[m.group(0)] if m.group(0) in new and m.group(0) in used and not m.group(0).isalpha() else m.group(0), rest)
    return code + rest


def main(argv):
    own, new, taken = table()
    bad = 0
    back = collections.defaultdict(list)
    for n, to in new.items():
        back[to].append(n)
    where = collections.defaultdict(set)
    for p in files("crates/**/*.antt", "crates/**/*.rt"):
        for n in TOKEN.findall(text_of(p)):
            where[n].add(p)
    for to, ns in back.items():
        ns = ns + [to] * (to in own and to not in new)
        if to not in CODE and (to in taken or len(ns) > 1 and set.intersection(*[where[n] for n in ns])):
            print(f"fall together: {' '.join(ns)} -> {to}")
            bad += 1
    # a new name that stands somewhere already, not behind a dot
    for p in files("crates/*/specs/**/*.antt", "crates/*/proofs/**/*.antt"):
        for i, l in enumerate(text_of(p).splitlines(), 1):
            l = l[: comment_at(l, "--")]
            for m in TOKEN.finditer(l):
                if m.group(0) in back and m.group(0) not in own and (m.start() == 0 or l[m.start() - 1] != "."):
                    print(f"look: {p}:{i}: {m.group(0)} (of {' '.join(back[m.group(0)])}) stands here already")
    if "--check" in argv:
        for n, to in new.items():
            print(f"{n}\t{to}\t{own[n]}")
    if bad or "--check" in argv:
        return 1 if bad else 0
    for p in files("crates/**/*.antt", "crates/**/*.rt", "crates/*/must-fail/*.edit"):
        text = text_of(p)
        crate = p.split("/")[1]
        names = dict(new)
        for c, facts in FACTS.items():
            if f"Rattle.{c}.specs.{FACT_FILES[c]}.{{" in text or p == f"crates/{c}/specs/{FACT_FILES[c]}.antt" or (p.endswith(".edit") and crate == c):
                imported = set()
                for m in re.finditer(rf"Rattle\.{c}\.specs\.{FACT_FILES[c]}\.\{{([^}}]*)\}}", text):
                    imported |= {n.strip() for n in m.group(1).split(",")}
                whole = p.endswith(".edit") or p == f"crates/{c}/specs/{FACT_FILES[c]}.antt"
                names.update({n: to for n, to in facts.items() if whole or n in imported})
        mark = "--" if p.endswith(".antt") else "//"
        used = set(TOKEN.findall("\n".join(l[: comment_at(l, mark)] for l in text.splitlines())))
        out = []
        for l in text.split("\n"):
            if p.endswith(".edit"):
                m = re.match(r"(old: |new: )(.*)", l)
                out.append(m.group(1) + turn_line(m.group(2), names, "//", set()) if m else l)
            elif p.endswith(".rt"):
                out.append(turn_rt(l, names, used))
            else:
                out.append(turn_line(l, names, mark, used))
        text = "\n".join(out)
        for c in ("discovery_calls", "discovery_pages", "pair_tables", "receiver", "sequences", "waiting_store"):
            text = text.replace(f"Rattle.{c}.specs.Contracts", f"Rattle.{c}.specs.Promises")
            if p == f"crates/{c}/specs/Lib.antt":
                text = re.sub(r"(?m)^pub mod Contracts$", "pub mod Promises", text)
            if p.endswith(".edit") and crate == c:
                text = text.replace("file: specs/Contracts.antt", "file: specs/Promises.antt")
        with open(p, "w", encoding="utf-8") as f:
            f.write(text)
    for p in files("crates/*/specs/Contracts.antt"):
        os.rename(p, p.replace("Contracts.antt", "Promises.antt"))
    for p in files("*.md", "docs/**/*.md"):
        if p in ("docs/PORT.md", "CHANGELOG.md") or p.startswith("docs/landings/"):
            continue
        text = re.sub(r"`[^`\n]+`", lambda m: TOKEN.sub(lambda t: new.get(t.group(0), t.group(0)), m.group(0)[1:-1]).join("``"), text_of(p))
        with open(p, "w", encoding="utf-8") as f:
            f.write(text)
    print(f"{len(new)} names")
    return 0


def turn_rt(line, names, used):
    """In Rattle code only names that no identifier of Rust can be are turned, and what stands in clauses and ghost imports."""
    if line.lstrip().startswith("ghost use") or re.search(r"\b(ensures|requires|ghost)\b", line) or re.match(r"\s*[^;]*$", line):
        return turn_line(line, names, "//", used)
    return turn_line(line, {n: to for n, to in names.items() if "-" in n}, "//", used)


if __name__ == "__main__":
    raise SystemExit(main(sys.argv[1:]))
