#!/usr/bin/env python3
"""Brings the names of goals and steps in Answers.antt and Invariants.antt to today's spelling: a name from the source keeps its
underscores, and Rattle's own words are in snake case.

usage: python3 tools/turn_goals.py [CRATE ..]      at the top of the repository
"""

import glob
import os
import re
import sys

TOKEN = re.compile(r"[^\s(){}.;,\[\]\"@:`]+")
WORDS = {"in-ok": "in_ok", "in-err": "in_err", "invariant-of": "invariant_of", "slice-bounds": "slice_bounds", "in-default": "in_default",
         "overflow-add": "overflow_add", "overflow-sub": "overflow_sub", "overflow-mul": "overflow_mul", "overflow-cast": "overflow_cast",
         "overflow-step": "overflow_step", "overflow-shl": "overflow_shl", "nonzero-div": "nonzero_div", "nonzero-rem": "nonzero_rem",
         "offset-bounds": "offset_bounds", "from-residual": "from_residual", "yielded-by": "yielded_by", "type-inv": "type_inv",
         "as-slice": "as_slice", "as-str": "as_str", "deref-mut": "deref_mut", "index-mut": "index_mut", "rotate-left": "rotate_left",
         "iter-mut": "iter_mut", "as-mut-slice": "as_mut_slice", "checked-sub": "checked_sub", "div-ceil": "div_ceil", "shared-slice-known": "shared_slice_known",
         "In-ok": "In_ok", "In-err": "In_err", "After-from-residual": "After-from_residual"}


def main(names):
    idents = set()
    for p in glob.glob("crates/*/src/**/*.rt", recursive=True):
        idents.update(i for i in re.findall(r"\b[A-Za-z]\w*\b", open(p, encoding="utf-8").read()) if "_" in i.strip("_"))
    turn = dict(WORDS)
    turn.update({i.replace("_", "-"): i for i in idents})
    known = sorted(turn, key=len, reverse=True)
    word = re.compile(r"(?<![^-])(" + "|".join(map(re.escape, known)) + r")(?![^-])")
    for p in glob.glob("crates/*/proofs/**/*.antt", recursive=True):
        if os.path.basename(p) not in ("Answers.antt", "Invariants.antt") or (names and p.split("/")[1] not in names):
            continue
        t = open(p, encoding="utf-8").read()
        imported = set()
        for l in t.split("\n"):
            if l.startswith("use ") and "Goals" not in l and "Given" not in l:
                imported.update(TOKEN.findall(l))
        new = TOKEN.sub(lambda m: m.group() if m.group() in imported else word.sub(lambda w: turn[w.group()], m.group()), t)
        if new != t:
            open(p, "w", encoding="utf-8").write(new)


main(sys.argv[1:])
