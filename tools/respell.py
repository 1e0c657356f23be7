#!/usr/bin/env python3
"""Respells the repository's own definitions and lemmas as the kit does: words in snake case, types and facts in camel case, and a dash only
between the names of two functions in a lemma. Run once, at the top, right after the kit's port.py.

Functions of src/, strings, inputs and outputs keep their names: the names below have a dash, which no Rust name has, so in a .rt file only
clauses can hold them.
"""

import os
import re
import sys

# facts and records of facts
CAMEL = "All-within Copied-in Item-laid Items-stand Names-mode Passed-on Read-written Refused-by Scans-pairs Set-up Well-shaped Written-read"

# lemmas whose dash already joins two functions, and lemmas that are respelled in another way than dash by underscore
OTHER = {
    "imap-length": "length-imap",
    "imap-getD": "get_or-imap",
    "imap-same-but": "imap_same_but",
}
KEPT = "imap-set imap-push length-content length-flat length-overwritten length-draft length-after texts-append pairs-append count-imap sum_by-cons map-set"

SNAKE = """
absent-append absent-entry accept-err accept-ok after-filing all-visible answer-are answer-may-settle answer-ranges answer-settles
answer-within answered-wait apart-drafts append-refusal asked-options asked-within asks-some begins-head begins-none begun-set by-options
byte-value bytes-at bytes-from bytes-is bytes-length cabin-holds call-refusal cause-number content-other content-own count-below
count-drafts cut-is cut-to draft-at draft-is draft-of draft-same drafts-after drafts-filed drafts-kept drafts-of drafts-rest drafts-set
drop-two ends-value error-code every-listed extended-both extended-last extended-new fault-cut fault-is fault-none fault-number fault-some
few-filed file-refusal filed-at filed-held filed-last filed-len filed-other filed-past filings-kept filings-push fits-is flat-more
flat-next has-name heard-err heard-ok held-entry held-front held-second held-third hex-bytes imap-same item-is items-after items-filed
items-rest items-same items-stand joined-digits kept-if-legal laid-named laid-rejected last-not legal-front legal-name legal-patience
legal-sizes listed-finds listed-fit listed-good listed-once map-same-but may-ask may-settle mode-word name-cut name-ends name-refusal
name-text new-texts no-item-draft no-options none-parts none-there noted-none numeral-decimal numeral-value offer-err offer-ok on-given
one-cut one-held one-kind one-pairs only-taken open-mapped open-refusal other-draft owned-since page-drafts page-items page-opens
page-same page-takes pair-text part-is part-two passed-from passed-other phase-word piece-refusal position-found position-none
read-refusal read-written request-are request-ranges role-word room-is same-is same-wait set-absent settled-may settled-some shield-holds
side-number side-word size-refusal slot-drafts slot-items slot-opens slot-takes strike-refusal take-both take-two tally-kept ten-at-most
text-decimal text-is texts-next texts-none texts-one used-set value-cut value-ends value-is wanted-named wanted-range wants-back
wants-front wide-nil without-length without-own word-b word-t word-w
"""


def camel(name):
    first, *rest = name.split("-")
    return first + "".join(w.capitalize() for w in rest)


NAMES = {n: n.replace("-", "_") for n in SNAKE.split()} | {n: camel(n) for n in CAMEL.split()} | OTHER
WORD = re.compile(r"(?<![\w'-])(" + "|".join(sorted(map(re.escape, NAMES), key=len, reverse=True)) + r")(?![\w'-])")
STRING = re.compile(r'"(?:[^"\\]|\\.)*"')


def respell(line, ghost):
    """The line with its names respelled, but for what stands in a string of Rust code."""
    if ghost:
        return WORD.sub(lambda m: NAMES[m.group(1)], line)
    out, at = [], 0
    for m in STRING.finditer(line):
        out += [WORD.sub(lambda w: NAMES[w.group(1)], line[at : m.start()]), m.group(0)]
        at = m.end()
    return "".join(out) + WORD.sub(lambda w: NAMES[w.group(1)], line[at:])


def main():
    if not os.path.isdir("crates"):
        sys.exit("respell: run it at the top of the repository")
    changed = 0
    for folder, dirs, files in os.walk("crates"):
        dirs[:] = sorted(d for d in dirs if d != "out")
        for name in sorted(files):
            if not name.endswith((".rt", ".antt", ".edit")):
                continue
            path = os.path.join(folder, name)
            with open(path, encoding="utf-8") as f:
                old = f.read()
            new = "".join(respell(line, name.endswith(".antt")) for line in old.splitlines(keepends=True))
            if new != old:
                with open(path, "w", encoding="utf-8") as f:
                    f.write(new)
                changed += 1
    print(f"respell: {changed} files")


main()
