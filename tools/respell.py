#!/usr/bin/env python3
"""Brings the repository's own definitions and lemmas to one spelling, after port.py: words in snake case.

A name in camel case becomes snake case. In a name with dashes a dash stays where it joins the names of two
definitions, as in `size-adding`, and is an underscore elsewhere, as in `none_empty`. Run once, at the top.
It also respells the must-fail edits, whose text port.py does not turn, and moves slots/specs/Contracts.antt,
whose name Rattle now makes itself.
"""
import glob
import os
import re

SIGNATURE = re.compile(r"^\s*((?:pub|abbrev|unfoldable|record|data)\s+)*([^\s:(){}=,|;]+)\s+:\s")
IMPORT = re.compile(r"^(?:ghost )?use ([^\s{]+)(?:\.\{([^}]*)\})?")
TOKEN = re.compile(r"[A-Za-z][A-Za-z0-9_'\-]*")
OUTSIDE = ("Prim.", "mathlib.", "native.", "lib.", "borrow.", "Rattle.std.", "logic.")
EDITS = {
    "course/must-fail/joins_below_held.edit": (
        "(cond (is_empty (above h s.0)) (waiting b s) (case.Restarted s)))",
        "(cond (is_empty (above h s.0)) (case.Restarted s) (waiting b s)))"),
    "course/must-fail/keeps_above.edit": (
        "slots_after (case.Restarted s) t i = released t i (above (held_by t i) s.0)",
        "slots_after (case.Restarted s) t i = released t i (above (held_by t i) 63)"),
    "course/must-fail/releases_below.edit": (
        "slots_after (case.Restarted s) t i = released t i (above (held_by t i) s.0)",
        "slots_after (case.Restarted s) t i = released t i (held_by t i)"),
    "course/must-fail/takes_from_head.edit": (
        "(cond (not (has o s.0)) (case.Took s)",
        "(cond (not (has h s.0)) (case.Took s)"),
    "promises/must-fail/all_at_the_first_turn.edit": (
        "(e.report.outcome ≡ reported (run_alone e img).outcome) × ((e.report.regs ≡ (run_alone e img).registers) × Agree es (run_alone e img).image)",
        "(e.report.outcome ≡ reported (run_alone e img).outcome) × ((e.report.regs ≡ (run_alone e img).registers) × Agree es img)"),
    "promises/must-fail/blocks_below_held.edit": (
        "(cond (is_empty (above x.L h)) (at_line7 h (adding x.L h)) (at_line8 h (adding x.L h) (above x.L h)))",
        "(cond (is_empty (above x.L 63)) (at_line7 h (adding x.L h)) (at_line8 h (adding x.L h) (above x.L h)))"),
    "promises/must-fail/latest_first.edit": (
        "ended = cond (ends (step_reply w i).word) (w.ended ++ (transaction (w.notes i) (lib.result (step_reply w i).table i) ∷ [])) w.ended;",
        "ended = cond (ends (step_reply w i).word) ((transaction (w.notes i) (lib.result (step_reply w i).table i) ∷ []) ++ w.ended) w.ended;"),
    "promises/must-fail/releases_all.edit": (
        "from8 h L M none = move word.Restarted (some (transaction x.script (opened_run x.run.reading) (line14 h) L M)) (releasing M k) m",
        "from8 h L M none = move word.Restarted (some (transaction x.script (opened_run x.run.reading) (line14 h) L M)) (releasing L k) m"),
    "promises/must-fail/restart_keeps_the_run.edit": (
        "from8 h L M none = move word.Restarted (some (transaction x.script (opened_run x.run.reading) (line14 h) L M)) (releasing M k) m",
        "from8 h L M none = move word.Restarted (some (transaction x.script x.run (line14 h) L M)) (releasing M k) m"),
    "rules/must-fail/five_one_rl.edit": (
        "+ 2 * ((seat_at t i).tally.restarts * size (concerned t i)) + q",
        "+ 1 * ((seat_at t i).tally.restarts * size (concerned t i)) + q"),
    "rules/must-fail/six_counts_as_restarts.edit": (
        "pub working : (seat_at t i).tally.working ≤ most_working",
        "pub working : (seat_at t i).tally.working ≤ most_restarts"),
    "runs/must-fail/first_write_wins.edit": (
        "value_after (w ∷ ws) c v = value_after ws c (cond (eqb w.cell.0 c) w.value v)",
        "value_after (w ∷ ws) c v = cond (eqb w.cell.0 c) w.value (value_after ws c v)"),
    "script/must-fail/act_less_swapped.edit": ("is_less a b = nat_lt a b", "is_less a b = nat_lt b a"),
    "script/must-fail/alone_failed_changes.edit": ("(end failed p.registers img))", "(end failed p.registers p.image))"),
    "shelf/must-fail/entry_cut_short.edit": (
        "is_whole s = leb (number_bytes + head_bytes) (length s) && eqb (get_or s 2 0) version && leb (span s) (length s)",
        "is_whole s = leb (number_bytes + head_bytes) (length s) && eqb (get_or s 2 0) version && leb (span s) (1 + length s)"),
    "shelf/must-fail/works_first.edit": (
        "on_either site works n = or_else (find n (shelf site)) (find n (shelf works))",
        "on_either site works n = or_else (find n (shelf works)) (find n (shelf site))"),
    "table/must-fail/refused_table_changed.edit": (
        "table = granted (open_refusal i f) (with_seat t i (opened_seat (read_script f).script reading)) t;",
        "table = granted (open_refusal i f) (with_seat t i (opened_seat (read_script f).script reading)) (with_seat t i (opened_seat (read_script f).script 0));"),
}

# Lemmas that would take a definition's new name.
LEMMAS = {
    "no_write": "crates/rules/proofs/*.antt crates/upkeep/proofs/OwnRuns.antt",
    "no_writes": "crates/rules/proofs/*.antt",
    "is_open": "crates/rules/proofs/Ownership.antt",
    "goes_on": "crates/promises/proofs/*.antt",
    "to_cell": "crates/promises/proofs/*.antt",
    "end_line": "crates/sheet/proofs/*.antt",
    "step_line": "crates/sheet/proofs/*.antt",
}


def snake(name):
    name = re.sub(r"(?<=[a-z0-9])([A-Z])", lambda m: "_" + m.group(1), name)
    return name if name[0].isupper() else name.lower()


def is_goal(line):
    return re.search(r": tie\.|statement M", line)


def own_names(files):
    """The names that the repository's own antt declares, by how they are declared."""
    plain, outside = set(), set()
    for path in files:
        for line in open(path):
            found = IMPORT.match(line)
            if found and (found.group(1).startswith(OUTSIDE) or ".Tie" in found.group(1)):
                outside.update(x.strip() for x in (found.group(2) or "").split(","))
            found = SIGNATURE.match(line)
            if found and not is_goal(line) and found.group(2) not in ("let", "in", "elim", "use", "λ"):
                plain.add(found.group(2))
    return plain - outside, outside


def is_camel(name):
    return name[0].islower() and re.search(r"[a-z0-9][A-Z]", name)


def respelled(name, words):
    """`words` are the names of definitions, in their new spelling."""
    if name[0].isupper():
        return "".join(p[0].upper() + p[1:] for p in name.split("-"))
    parts = [snake(p) for p in name.split("-")]
    out = parts[0]
    for left, right in zip(parts, parts[1:]):
        out += ("-" if left in words and right in words else "_") + right
    return out


def mapping(files):
    own, outside = own_names(files)
    words = set()
    for path in files:
        for line in open(path):
            found = re.match(r"^(?:abbrev|unfoldable) (?:pub )?([^\s:]+) : ", line)
            if found:
                words.add(snake(found.group(1)))
    names = {}
    for name in sorted(own):
        if is_camel(name) or "-" in name:
            new = respelled(name, words)
            if new != name:
                names[name] = new
    taken = own | outside
    for old, new in sorted(names.items()):
        if "-" in old and (new in taken or list(names.values()).count(new) > 1):
            names[old] = new + "_lem"
    for old, new in names.items():
        if new in taken or list(names.values()).count(new) > 1:
            print(f"falls together: {old} -> {new}")
    return names


def move_lemmas_aside():
    for name, patterns in LEMMAS.items():
        for path in [p for pattern in patterns.split() for p in glob.glob(pattern)]:
            text = open(path).read()
            new = TOKEN.sub(lambda m: name + "_lem" if m.group(0) == name else m.group(0), text)
            if new != text:
                open(path, "w").write(new)


def main():
    move_lemmas_aside()
    antt = glob.glob("crates/*/specs/*.antt") + glob.glob("crates/*/proofs/**/*.antt", recursive=True)
    names = mapping(antt)
    texts = antt + glob.glob("crates/*/src/*.rt") + glob.glob("crates/*/must-fail/*.edit") + glob.glob("docs/*.md") + ["README.md"]

    def turn(found):
        return names.get(found.group(0), found.group(0))

    for path in texts:
        text = open(path).read()
        new = "\n".join(l if is_goal(l) else TOKEN.sub(turn, l) for l in text.split("\n"))
        new = new.replace("slots.specs.Contracts", "slots.specs.Settling").replace("slots/specs/Contracts", "slots/specs/Settling")
        if new != text:
            open(path, "w").write(new)
    os.rename("crates/slots/specs/Contracts.antt", "crates/slots/specs/Settling.antt")
    lib = "crates/slots/specs/Lib.antt"
    text = open(lib).read()
    open(lib, "w").write(text.replace("mod Contracts", "mod Settling"))
    for edit, (old, new) in EDITS.items():
        path = os.path.join("crates", edit)
        lines = open(path).read().split("\n")
        lines = [("old: " + old) if l.startswith("old:") else ("new: " + new) if l.startswith("new:") else l for l in lines]
        open(path, "w").write("\n".join(lines))
    for old, new in sorted(names.items()):
        print(f"{old} -> {new}")


main()
