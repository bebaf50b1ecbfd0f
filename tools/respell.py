#!/usr/bin/env python3
"""Brings the repository's own names in specs/, proofs/, ghost clauses and planted bugs to today's spelling: a definition or a
lemma in snake case, a fact, a record or a type in upper camel case. What Rattle makes or the library declares keeps its name, and
so do comments, strings, functions and everything that runs.

usage: python3 tools/respell.py [--dry]      at the top of the repository, once
"""

import collections
import glob
import os
import re
import sys

KIT = "/opt/rattle/rattle"
TOKEN = re.compile(r"[^\s(){}.;,\[\]\"@:`]+")
KEYWORDS = r"(?:abbrev |unfoldable |pub |instance |opaque |private )*"
# Names that would fall together with another name that is in scope beside them, or read badly.
BY_HAND = {
    "cells-lie-apart": "cells_lie_apart_lem",
    "check-columns": "columns_check",
    "check-counts": "counts_check",
    "check-entries": "entries_check",
    "check-job": "job_check",
    "check-length": "length_check",
    "check-list": "list_check",
    "check-lists": "lists_check",
    "check-order": "order_check",
    "check-placement": "placement_check",
    "check-size": "size_check",
    "check-sizes": "sizes_check",
    "clean-exactly-placeable": "clean_exactly_placeable_lem",
    "downward-loop-forbids": "downward_loop_forbids_lem",
    "entry-step": "step_of_entry",
    "entry-with": "entry_with_cell",
    "expression-never-refused": "expression_never_refused_lem",
    "fault-place": "place_of_fault",
    "fits-entry": "entry_fits",
    "follows-all": "entry_follows_all",
    "forbidden-couple-loops": "forbidden_couple_loops_lem",
    "forbidden-unplaceable": "forbidden_unplaceable_lem",
    "halves-meet": "halves_meet_lem",
    "is-count": "is_cell_count",
    "is-long": "are_long",
    "is-size": "is_size_number",
    "keeps-laws": "keeps_laws_lem",
    "kind-of": "book_kind_of",
    "length-number": "length_number_at",
    "loop-across-forbids": "loop_across_forbids_lem",
    "of-cell": "of_cell_lem",
    "order-list": "order_list_at",
    "order-number": "order_number_at",
    "outer-pair-is-placed": "outer_pair_is_placed_lem",
    "paths-are-short": "paths_are_short_lem",
    "placement-body": "placement_body_at",
    "placement-head": "placement_head_of",
    "placing-place": "place_of_placing",
    "put-length": "length_of_put",
    "read-job": "read_job_of",
    "read-placement": "read_placement_of",
    "row-of-five-loops": "row_of_five_loops_lem",
    "rule-is-best": "rule_is_best_lem",
    "rule-places": "rule_places_lem",
    "same-cell": "same_cell_told",
    "stack-of-three-loops": "stack_of_three_loops_lem",
    "values-exist": "values_exist_lem",
    "values-unique": "values_unique_lem",
}

# Names of this repository that the library's files have too, as other names of theirs.
FORCED = set("adds-nothing all-below at-end at-index each-is first-is from-index head-of entries-more length-below pow-one join-none size-some".split())


def files(pattern):
    return sorted(glob.glob(pattern, recursive=True))


def code(line):
    """The line without its comment."""
    cut = re.search(r"(^|\s)--(\s|$)", line)
    return line[: cut.start()] if cut else line


def declared(text):
    """The names that an antt text declares, each with whether it is a fact, a record or a type."""
    found = {}
    for line in text.split("\n"):
        s = code(line).rstrip()
        m = re.match(r"^\s*" + KEYWORDS + r"(record |data )?(" + TOKEN.pattern + r")\s(.*)$", s)
        if not m:
            continue
        kind, name, rest = m.groups()
        if kind:
            found[name] = True
        elif re.match(r"^((\(.*\)|\{.*\})\s*)*:(\s|$)", rest):
            found.setdefault(name, False)
            if re.search(r"Type 0\s*$", rest):
                found[name] = True
    return found


def is_word(token):
    """Is the token of an older spelling: with a dash, or a definition in lower camel case?"""
    return re.match(r"^[A-Za-z].*-", token) is not None or re.match(r"^[a-z][a-z0-9]*[A-Z]\w*$", token) is not None


def library():
    names = set()
    for path in files(KIT + "/**/*.antt"):
        with open(path, encoding="utf-8", errors="replace") as f:
            for line in f:
                names.update(t for t in TOKEN.findall(code(line)) if is_word(t))
    return names


def camel(name):
    return "".join(part[:1].upper() + part[1:] for part in re.split(r"[-]", name))


def respelled(name, is_fact):
    if name in BY_HAND:
        return BY_HAND[name]
    if is_fact and name[0].isupper():
        return camel(name)
    if "-" not in name:
        return re.sub(r"[A-Z]", lambda m: "_" + m.group().lower(), name)
    return name.replace("-", "_")


def plain(path):
    return os.path.basename(path) not in ("Answers.antt", "Invariants.antt", "Proof.antt")


def main():
    dry = "--dry" in sys.argv
    antt = files("crates/*/specs/**/*.antt") + files("crates/*/proofs/**/*.antt")
    texts = {p: open(p, encoding="utf-8").read() for p in antt}
    known = library()
    own = {}
    for p, t in texts.items():
        for name, fact in declared(t).items():
            if not plain(p) and re.search(r"(?m)^(abbrev )?pub " + re.escape(name) + r" : goal\.", t):
                continue
            if is_word(name):
                own[name] = own.get(name, False) or fact
    local = set()
    for p, t in texts.items():
        if plain(p):
            for line in t.split("\n"):
                local.update(n for n in TOKEN.findall(code(line)) if "-" in n and is_word(n) and n not in own and n not in known)
    both = sorted(n for n in own if n in known)
    turn = {n: respelled(n, f) for n, f in own.items() if n not in known or n in FORCED}
    there = set()
    for t in list(texts.values()) + [open(p, encoding="utf-8").read() for p in files("crates/*/src/**/*.rt")]:
        there.update(TOKEN.findall(t))
    for n in sorted(local):
        turn[n] = n.replace("-", "_")
    back = collections.defaultdict(list)
    for n, to in turn.items():
        back[to].append(n)
    for to, froms in sorted(back.items()):
        if len(froms) > 1 or to in there:
            print("falls together:", to, "from", ", ".join(sorted(froms)), "(stands already)" if to in there else "")
    if both:
        print("also the library's, kept:", " ".join(both))

    def swap(text, rule):
        return TOKEN.sub(lambda m: turn[m.group()] if m.group() in turn and rule(m) else m.group(), text)

    changed = 0
    for p, t in texts.items():
        out = []
        for line in t.split("\n"):
            body = code(line)
            tail = line[len(body):]
            if plain(p):
                body = swap(body, lambda m: True)
            else:
                # a step or a goal that Rattle names keeps its name
                body = swap(body, lambda m: not re.search(r"(?<![\w'])(c|w|l|goal|given)\.$", body[: m.start()]) and m.group() not in local)
            out.append(body + tail)
        new = "\n".join(out)
        if new != t:
            changed += 1
            if not dry:
                open(p, "w", encoding="utf-8").write(new)
    clause = re.compile(r"^\s*(ghost|ensures|requires|law)\b")
    for p in files("crates/*/src/**/*.rt"):
        out = []
        alias = {}
        for line in open(p, encoding="utf-8").read().split("\n"):
            if clause.match(line):
                # a name that could not stand in a clause had an alias, and needs none now
                for name, other in re.findall(r"«([\w-]+)» as (\w+)", line):
                    alias[other] = turn.get(name, name)
                line = re.sub(r"«([\w-]+)» as (\w+)", lambda m: turn.get(m.group(1), m.group(1)), line)
                line = swap(line, lambda m: m.group() not in local)
                line = TOKEN.sub(lambda m: alias.get(m.group(), m.group()), line)
            out.append(line)
        new = "\n".join(out)
        if new != open(p, encoding="utf-8").read():
            changed += 1
            if not dry:
                open(p, "w", encoding="utf-8").write(new)
    for p in files("crates/*/must-fail/*.edit"):
        t = open(p, encoding="utf-8").read()
        if re.search(r"(?m)^file: (specs|proofs)/", t) or "ensures" in t:
            new = "\n".join(swap(l, lambda m: True) if re.match("(old|new): ", l) else l for l in t.split("\n"))
            if new != t:
                changed += 1
                if not dry:
                    open(p, "w", encoding="utf-8").write(new)
    print(changed, "files,", len(turn), "names")
    if "--list" in sys.argv:
        for n in sorted(turn):
            print(" ", n, "→", turn[n], "" if n in own else "(local)")


main()
