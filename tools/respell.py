#!/usr/bin/env python3
"""Brings the names of this repository's own definitions and lemmas to today's spelling.

usage: python3 tools/respell.py [FOLDER]        FOLDER is the top of a checkout that port.py has turned; the current folder if left out

Functions are in snake case; a dash joins two names in a lemma about one applied to the other, and plain words are joined by an underscore.
It turns whole names only, in .antt files and in the clauses of .rt files (code, comments and strings of .rt files are left alone), and it stops
without a change where two names would fall together.
"""

import os
import re
import sys

# definitions and lemmas, old name to new
NAMES = {
    # refusal
    "layerNumber": "layer_number",
    # store
    "refusedAt": "refused_at",
    "versionAnswer": "version_answer",
    "readAnswer": "read_answer",
    "readBuffer": "read_buffer",
    "writeAnswer": "write_answer",
    "lastWritten": "last_written",
    "copiesAfter": "copies_after",
    "left-through": "left_through",
    "getD-left": "get_or-left",
    "getD-written": "get_or-written",
    "get_d_after": "get_or-after",
    "reads-last": "reads_last",
    "kept-none": "kept_none",
    "kept-some": "kept_some",
    "kept-sound": "Sound-kept",
    "unwritten-sound": "Sound-unwritten",
    "put-is-sets": "put_is_sets",
    "alike-between": "alike_between",
    "alike-number": "alike_number",
    "alike-first": "alike_first",
    "getD-sets-apart": "get_or-sets_apart",
    "sets-apart": "sets_apart",
    "sets-alike": "sets_alike",
    # slot_store
    "slotRefusal": "slot_refusal",
    "slotsIn": "slots_in",
    "slotCopies": "slot_copies",
    "withSlot": "with_slot",
    "clearedBelow": "cleared_below",
    "slotsWritten": "slots_written",
    "slotsCleared": "slots_cleared",
    "slotStore": "store_of_slots",
    "getD-slots": "get_or-slots",
    "slot-sound": "Sound-slot",
    "slots-fit": "slots_fit",
    "slot-like": "slot_like",
    "length-withSlot": "length-with_slot",
    "slot-other": "slot_other",
    "cleared-below": "slot_copies-cleared_below",
    "cleared-all": "cleared_all",
    # log_store
    "copyFound": "copy_found",
    "withRecord": "with_record",
    "withCopied": "with_copied",
    "logRefusal": "log_refusal",
    "logOf": "log_of",
    "roomIn": "room_in",
    "firstIn": "first_in",
    "newestIn": "newest_in",
    "carryIn": "carry_in",
    "carriedIn": "carried_in",
    "blockCount": "block_count",
    "recordCount": "record_count",
    "logCopies": "log_copies",
    "logWritten": "log_written",
    "logCleared": "log_cleared",
    "logStore": "store_of_log",
    "logAfter": "log_after",
    "getD-log": "get_or-log",
    "copy-sound": "Sound-copy",
    "found-sound": "Sound-found",
    "half-fits": "half_fits",
    "log-laws": "log_laws",
    "copyIn": "copy_in",
    "copyIn-suc": "copy_in-suc",
    "copyIn-same": "copy_in_same",
    "found-by": "found_by",
    "more-found": "more_found",
    "halves-apart": "halves_apart",
    "in-half": "in_half",
    "first-like": "first_like",
    "carries-one": "carries_one",
    "same-like": "same_like",
    "length-withRecord": "length-with_record",
    "length-withCopied": "length-with_copied",
    "laid-index": "laid_index",
    "laid-copy": "laid_copy",
    "laid-other": "laid_other",
    "copied-same": "copied_same",
    "copied-other": "copied_other",
    "newest-more": "newest_more",
    "carried-more": "carried_more",
    "same-carried": "same_carried",
    "compacted-roomy": "Roomy-compacted",
    "roomy-is": "Roomy-roomy",
    "added-copy": "added_copy",
    "log-written": "log_copies-appended",
    "log-started": "log_copies-started",
    "sizes-fit": "sizes_fit",
    "copies-written": "log_copies-log_written",
    "copies-cleared": "log_copies-log_cleared",
    "copies-after": "log_copies-log_after",
    "forgets-nothing": "forgets_nothing",
    # replicas
    "countAnswer": "count_answer",
    "clearAnswer": "clear_answer",
    "onlySite": "only_site",
    "only-laws": "Laws-only",
    "both-laws": "Laws-both",
    "in-first": "in_first",
    "in-second": "in_second",
    "in-none": "in_none",
    "rest-in-second": "rest_in_second",
    "rest-in-none": "rest_in_none",
    # sites
    "maxSites": "max_sites",
    "T-or-left": "T-or_left",
    "T-or-right": "T-or_right",
    "fold-cong": "fold_cong",
    "every-at": "every_at",
    "every-all": "every_all",
    "some-any": "some_any",
    "last-or-below": "last_or_below",
    "bit-half": "bit_half",
    "bit-low": "bit_low",
    "bit-ones": "bit_ones",
    "bit-times": "bit_times",
    "bits-count": "bits_count",
    "bits-subset": "bits_subset",
    "bits-sum": "bits_sum",
    "bits-value": "bits_value",
    "and-absorbed": "and_absorbed",
    "and-bit": "and_bit",
    "or-bit": "or_bit",
    "op-bit": "op_bit",
    "min-bit": "min_bit",
    "max-bit": "max_bit",
    "power-bit": "power_bit",
    "shifted-bit": "shifted_bit",
    "flip-bit": "flip_bit",
    "ones-counted": "ones_counted",
    "and-or": "and_or",
    "and-put": "and_put",
    "and-under": "and_under",
    "put-past": "put_past",
    "with-past": "with_past",
    "without-past": "without_past",
    "within-at": "within_at",
    "site-bit": "site_bit",
    "site-past": "site_past",
    "sites-all": "sites_all",
    "sites-below": "sites_below",
    "sites-either": "sites_either",
    "sites-size": "sites_size",
    "sites-subset": "sites_subset",
    "sites-value": "sites_value",
    "sites-with": "sites_with",
    "sites-without": "sites_without",
    # quorum
    "votesOf": "votes_of",
    "allVotes": "all_votes",
    "votesRule": "votes_rule",
    "smallVotes": "small_votes",
    "votesRefusal": "votes_refusal",
    "guardedRule": "guarded_rule",
    "votesIn": "votes_in",
    "ruleOfVotes": "rule_of_votes",
    "inColumn": "in_column",
    "columnHas": "column_has",
    "columnWhole": "column_whole",
    "gridReads": "grid_reads",
    "gridWrites": "grid_writes",
    "gridRule": "grid_rule",
    "gridRefusal": "grid_refusal",
    "ruleOfGrid": "rule_of_grid",
    "refusedRule": "refused_rule",
    "firstColumn": "first_column",
    "read-write": "read_write",
    "write-write": "write_write",
    "writes-same": "writes_same",
    "three-votes": "three_votes",
    "four-votes": "four_votes",
    "four-votes-higher": "four_votes_higher",
    "two-by-three": "two_by_three",
    "row-writes-not": "row_writes_not",
    "one-more-writes": "one_more_writes",
    "column-reads-not": "column_reads_not",
    "column-writes-not": "column_writes_not",
    "one-site": "one_site",
    "half-each": "half_each",
    "votes-same": "votes_same",
    "votes-lawful": "votes_lawful",
    "guarded-lawful": "guarded_lawful",
    "guarded-is": "guarded_is",
    "guards-hold": "guards_hold",
    "grid-reads-same": "grid_reads_same",
    "grid-lawful": "grid_lawful",
}

NAME = re.compile(r"(?<![\w'.«-])(?:[^\W\d_]|_(?=\w))[\w'-]*")
FIELD = re.compile(r"(?<=\.)(?:[^\W\d_])[\w'-]*")
CLAUSE = re.compile(r"^\s*(?:requires|ensures|ghost)\b")


def turn(text):
    def new(m):
        return NAMES.get(m.group(0), m.group(0))

    return FIELD.sub(new, NAME.sub(new, text))


def turn_antt(text):
    return "\n".join(turn(l) if not l.lstrip().startswith("--") else l for l in text.split("\n"))


def turn_rt(text):
    return "\n".join(turn(l) if CLAUSE.match(l) else l for l in text.split("\n"))


def files(top):
    for folder, dirs, names in os.walk(os.path.join(top, "crates")):
        dirs[:] = sorted(d for d in dirs if d != "out")
        for n in sorted(names):
            if n.endswith((".rt", ".antt")):
                yield os.path.join(folder, n)


def main(argv):
    top = argv[0] if argv else "."
    old = {p: open(p, encoding="utf-8").read() for p in files(top)}
    taken = set()
    for p, t in old.items():
        if p.endswith(".antt"):
            for line in t.split("\n"):
                m = re.match(r"\s*(?:abbrev |unfoldable )*(?:pub )?(?:data |record )?([^\s:(){}=]+)[^=]*:", line)
                if m and not line.lstrip().startswith(("--", "use ")):
                    taken.add(m.group(1))
    clash = sorted(n for o, n in NAMES.items() if n in taken and o in taken and n != o)
    if clash:
        print("respell: these names would fall together: " + ", ".join(clash))
        return 1
    if len(set(NAMES.values())) != len(NAMES):
        print("respell: two names are turned to one")
        return 1
    n = 0
    for p, t in old.items():
        new = turn_antt(t) if p.endswith(".antt") else turn_rt(t)
        if new != t:
            with open(p, "w", encoding="utf-8") as f:
                f.write(new)
            n += 1
    print(f"respell: {n} files turned")
    return 0


if __name__ == "__main__":
    raise SystemExit(main(sys.argv[1:]))
