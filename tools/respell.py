#!/usr/bin/env python3
"""Respells this repository's definitions, lemmas and local names of proofs as today's Rattle does: words in snake case, types and facts in camel case.

usage: python3 tools/respell.py [FOLDER]      the top of the checkout that is rewritten in place, once, after the kit's own scripts

In .rt and .antt files below crates/ each name of NAMES is respelled, in comments only between backticks and in strings nowhere.
In README.md and docs/ only what stands between backticks is respelled, the names that the kit's scripts turned (KIT) too.
"""

import os
import re
import sys

NAMES = """
Allows-book Allows-run Bare-counts Bare-edits Bare-trees Book-answered Book-call Book-table Book-told Built-low Coverage-stays Covered-tree Covers-all
Draft-open Edit-costs Edit-counts Edit-facts Edit-table Edits-cost Edits-count Edits-spell Edits-to Every-call Finds-the-first Follow-bare-rules
Follow-the-rules Found-on Frames-yield Goes-with Handed-back Has-halves Head-of Heights-bounded Histories-go-on In-turn Is-some Join-adds Join-any
Join-facts Join-keeps Join-sums Joins-to Kept-by Kept-versions Leads-to Low-law Low-under Many-pieces No-draft No-pattern No-room No-text Node-at
None-before Not-kept One-outcome Other-texts Own-row Past-draft Past-text Past-version Placed-both Plain-row Plain-told Put-any Put-piece
Refusals-change-nothing Refused-by-both Refused-by-smallest Rest-stays Ring-of Root-answer Root-of Rows-in-order Sample-runs Sheet-answered Sheet-call
Sheet-sound Sheet-table Sheet-told Slots-in-order Slots-keep Spell-both Split-any Split-even Split-facts Split-keeps Split-low Splits-to Stands-at
Stays-covered Table-facts Tells-value Too-long Too-short Tossing-undoes Tree-book Tree-draft Turns-written Versions-stay Within-text Worked-examples
accepted-one add-up after-keep all-balanced all-inside all-rooted all-stand all-stored all-written any-fewer any-in any-level any-short any-stays
any-take as-it-is at-end at-most-20 at-node at-plus at-space balanced-on balanced-parts balanced-written bare-counts bare-edits bare-trees begins-with
begun-step behind-read between-tossed blank-lengths block-joins book-accepted book-allows book-answer book-effect book-follows book-outcome
book-own-rows book-refused book-row book-rows book-said book-step both-assoc both-fill both-nothing both-parts both-passed both-sizes bring-up
bring-up-sound brought-settled brought-up buffer-after buffer-least buffer-refusal builds-as built-is by-book by-change by-kept by-sheet by-strings
byte-round bytes-at bytes-join c-tree call-counts call-covers call-of change-call change-for changed-inside closed-stops column-of-first command-holds
command-step copied-alike copy-answer copy-fills copy-row copy-rows count-is coverage-stays covered-by-more covered-by-root covered-from covered-is
covers-all covers-is covers-root covers-tree crop-cost crop-done crop-fails crop-fails₂ crop-made crop-passes crop-spells cut-cost cut-done cut-fails
cut-fails₂ cut-fails₃ cut-made cut-nothing cut-outer cut-passes cut-some cut-spells decides-balanced decides-begins decides-consistent decides-covers
decides-draft decides-drafted decides-filled decides-inside decides-kept decides-leb decides-long decides-no-draft decides-orderly decides-past-draft
decides-past-text decides-past-version decides-pattern decides-room decides-rooted decides-same decides-some decides-sound decides-stands
decides-texts decides-tree decides-true descend-level descend-lower descend-writes digit-first digit-more double-turn down-on draft-at draft-fit
draft-is draft-length draft-long draft-open draft-size draft-spells draft-string draft-view draft-whole drawn-on drawn-once drawn-twice drop-later
each-stored edit-answer edit-does edit-made edit-refused edit-rows edit-spells edit-steps edit-stops edited-same edits-cost edits-count edits-spell
effect-carries effect-covers effect-follows end-halves even-written exact-by exact-from exactly-two extends-append extends-front extends-length
extends-refl extends-take extends-trans fault-at fault-items fault-of faults-of-tokens faults-with-verb fed-first fed-is fed-row fewer-ready
fewer-slots fib-mono fib-pieces fib-rises file-most file-refusal filled-alike filled-both filled-front filled-right filled-settled find-done
find-missing find-on find-other find-unfit firm-extends firm-long firm-stays first-answer first-append first-column first-law first-place first-row
first-same first-there first-tree fit-extends fit-more fit-short fit-version fits-arguments fits-from-start follow-bare-rules follow-the-rules
forget-any forget-on forget-written fork-made forks-at forks-left forks-of found-first-place found-items found-on found-once found-there four-back
four-done four-fails₂ four-fails₃ four-left four-right four-second four-top frame-rows frames-yield fresh-of fresh-slot from-answers from-most
front-is getD-extends gets-as grown-append grown-is grown-take grows-append grows-behind grows-more grows-take halved-as halves-size height-any
height-fits height-forget height-of height-on height-under height-written heights-bounded held-content held-fit held-last held-texts high-slot
histories-go-on holding-arguments holding-ready holding-tokens holding-verb in-line in-room in-script in-text in-ts in-vs inner-fails inner-is
inner-less inner-pair inside-fails inside-from inside-halves is-inside is-kept is-piece is-text is-too item-more item-short join-adds join-any
join-any-made join-any-size join-descends join-done join-exchange join-keeps join-level join-lower join-on join-size join-small join-spell join-within
join-writes joined-short joined-size joined-unmatched joins-left joins-made joins-p joins-q joins-right judged-step judged-text keep-accepted
keep-answer keep-as keep-refused keep-steps kept-versions kept-written kind-bytes kind-number kind-of kind-words lacks-from lacks-later lacks-more
last-separator layer-letters layer-of layer-word leaf-at leaf-done leaf-fails leaf-made leaf-two lean-once lean-plain lean-turn lean-twice leaned-even
leaned-has leaned-last leaned-olds leaned-pairs leans-made least-arguments least-both left-balanced left-done left-fails left-fails₂ left-fills
left-high left-inside left-length left-pair left-root left-side left-size left-slot left-stays length-alike length-behind length-bytes length-filled
length-in-use length-kept length-lengths length-noted length-or-none length-ring length-same length-slots length-spell length-told length-trees
length-versions length-written lengths-of lens-fit letters-most level-done level-exchange level-join level-or-lean level-or-lean-writes level-or-leans
level-pair line-end line-ends line-faults line-most line-short lines-rule lines-said longest-pattern loop-all loop-more loop-none low-42 low-law
low-slot low-too made-line mapped-answer measure-written mirrored-turn missing-stops more-used most-kept most-slots most-texts most-versions name-more
names-most new-book new-consistent new-inside new-max new-sheet new-shown new-sound new-sound-sheet new-trees next-most no-draft no-get no-left
no-pattern no-right no-split no-tree node-is none-there none-used not-accepted not-both not-here not-kept not-rooted note-more noted-at of-book
of-copy of-lines of-pairs of-piece ok-of-cond ok-unless old-stored olds-map olds-on on-book on-book-step on-high on-left on-parts on-right on-sheet
on-size once-done once-fails once-inner once-left once-outer once-right one-crop one-cut one-digit one-fit one-join one-join-any one-lean one-outcome
one-put one-put-any one-short one-split-any only-join only-lean only-split open-blocked open-draft open-missing open-steps open-version other-texts
outer-is over-itself own-fed own-rows own-rows-are pair-fit pair-on pair-short pair-texts paired-of pairs-on pairs-rule pairs-said past-draft
past-text past-version piece-copied piece-done piece-empty piece-ends piece-fails piece-fails₂ piece-fills piece-long piece-no-text piece-passes
piece-past piece-within pieces-forget pieces-is pieces-size place-round placed-node placed-ok placed-then placed-written plain-answer plain-answers
plain-book-effect plain-book-told plain-edit plain-effect plain-join plain-left plain-lengths plain-level plain-new plain-refused plain-right
plain-rows-are plain-run plain-step-is plain-told put-any put-any-made put-cost put-done put-fails put-fails₂ put-fails₃ put-made put-nothing
put-piece put-piece-cost put-piece-made put-piece-spells put-spells put-version puts-piece question-call questions-answered reaches-past read-missing
read-on read-other read-refused record-at records-stay redraft-done redraft-fails redrafts-from refusals-answered refusals-change-nothing refused-by
refused-by-both refused-by-smallest refused-from refused-toss request-step right-balanced right-below right-done right-fails right-fails₂ right-fills
right-high right-inside right-meant right-more right-pair right-root right-size right-slot right-stays ring-body ring-content ring-fit ring-fits
ring-frame ring-memory ring-start ring-text ring-texts ring-yields room-enough room-less root-at root-more root-of root-stays root-used root-within
rooted-at roots-fewer roots-fit roots-stay row-fed row-numbered row-refuses rule-of run-allows run-carries run-counts run-covers run-follows
run-handed run-push runner-view runs-more said-kind said-length same-d same-l same-lengths same-r same-texts saturating-sum says-kind scan-inside
script-row second-answer second-law second-same second-there second-tree set-covers settled-all settled-le settled-of settled-records settled-slots
settled-within shape-done shape-forget shape-missing shape-plain shape-there shape-told sheet-answer sheet-at sheet-call sheet-effect sheet-extends
sheet-outcome sheet-own-rows sheet-row sheet-rows sheet-step sheet-view shelf-of short-texts show-most shown-check shown-content shown-row side-less
sides-below sides-held sides-of sides-within single-turn size-any size-forget size-on size-told slot-used slot-written slots-in-order slots-keep
small-written smallest-answers smallest-arguments smallest-first smallest-ready smallest-tokens smallest-verb some-of-ok some-shown sooner-assoc
sound-front sound-grows sound-push sound-sheet space-separator spell-any spells-left spells-right split-any split-any-made split-any-size split-at-end
split-at-start split-even split-front split-inside split-keeps split-kept split-larger split-measured split-piece split-placed split-size split-sizes
split-small split-smaller split-spell split-within splits-as splits-made stands-decides stands-in stands-inside start-low stays-covered step-allows
step-carries step-covers steps-from stored-extends stored-take straight-content straight-yields stretch-both stretch-in-two stretch-inner stretch-is
stretch-left stretch-node stretch-parts stretch-right stretch-round stretch-take stretch-value string-at table-facts take-both tally-more tally-told
tells-value ten-digits ten-more ten-most text-faults text-length text-short text-there to-left to-right tokens-from tokens-inside told-and-left
told-call told-new told-version top-fails toss-steps tossing-undoes trace-fit trace-kind trace-texts tree-at tree-in tree-missing tree-side tree-there
tree-value trees-append trees-are trees-push turn-is-once turn-is-twice turn-once turned-once turned-twice twice-left twice-right unless-before
unless-row unmatched-append unmatched-joins unmatched-most up-on value-at value-is value-right values-are verb-more verb-of version-fit version-is
version-kept version-length version-long version-missing version-passes version-past version-root version-settled version-size version-stays
version-value version-value-is version-whole versions-stay whole-cut whole-low whole-short whole-tree with-arguments with-book with-draft with-left
with-lines with-name with-pairs with-right with-text with-tokens with-verb within-from word-letters write-exchange
"""

# the names that the kit's scripts turned already in crates/
KIT = """
after-is all-first all-more all-new all-of all-short all-sound and-then any-at apart-of as-it-was at-first at-last at-more at-on at-other at-rest
between-done between-more by-row by-rows bytes-of closed-is covered-more covered-whole decides-below end-of every-call filled-more find-past first-byte
first-fits first-of fit-at fit-length fits-both fork-at found-first found-nowhere four-bytes frame-row fresh-at front-at go-on goes-on has-room held-more
held-of in-bytes in-memory in-use in-window is-word joined-bytes last-line left-below len-is length-at length-more line-of line-step lines-from
little-endian made-as made-inside made-then name-of no-more no-node no-room no-text node-at node-made none-left none-more none-of not-done not-none of-room
once-is one-more one-split over-closed past-end piece-is plain-done plain-end plain-rows plain-step put-front put-is put-whole read-done read-past reads-at
reads-of right-side row-is row-of run-more run-room runs-none same-false same-rows same-true second-is settled-at settled-is size-is slot-at slot-of
split-between stands-at start-fits step-counts step-follows step-is stored-at stored-last stored-more take-short to-both to-end to-front told-more too-few
too-long too-many tree-of turn-twice two-bytes view-of whole-is within-more written-has wrote-one drawn-plain none-is one-plain shape-of
"""

# the library has IsSome, by other words
OTHERWISE = {"Is-some": "HasValue"}

# in this file a type of the machine and one of the code have the same name
TWO_OF_A_NAME = {
    "crates/replay/specs/Calls.antt": [("Book-call, Sheet-call, open-version", "Book-call, open-version"), ("Sheet-call", "calls.SheetCall")],
}

TOKEN = re.compile(r"(?<![\w'-])[A-Za-z][\w']*(?:-[\w']+)+(?![\w'-])")


def respelled(name):
    if name in OTHERWISE:
        return OTHERWISE[name]
    if name[0].isupper():
        return "".join(word[0].upper() + word[1:] for word in name.split("-"))
    return name.replace("getD", "get_or").replace("-", "_")


def turn(text, names):
    return TOKEN.sub(lambda m: respelled(m.group(0)) if m.group(0) in names else m.group(0), text)


def in_ticks(text, names):
    return re.sub(r"`[^`\n]+`", lambda m: turn(m.group(0), names), text)


def turn_line(line, names):
    """The code of a line but its strings; of a comment only what stands between backticks."""
    comment = re.search(r"//|(?:^|(?<=\s))--(?=\s|$)", line)
    code, rest = (line[: comment.start()], line[comment.start() :]) if comment else (line, "")
    parts = re.split(r'("(?:[^"\\\\]|\\\\.)*")', code)
    return "".join(p if p.startswith('"') else turn(p, names) for p in parts) + in_ticks(rest, names)


def main(top):
    own = set(NAMES.split())
    for folder, dirs, files in os.walk(os.path.join(top, "crates")):
        dirs[:] = [d for d in dirs if d != "out"]
        for name in files:
            if name.endswith((".rt", ".antt")):
                path = os.path.join(folder, name)
                with open(path, encoding="utf-8") as f:
                    text = f.read()
                new = text
                for old, to in TWO_OF_A_NAME.get(os.path.relpath(path, top), []):
                    new = re.sub(r"(?<![\w'-])" + re.escape(old) + r"(?![\w'-])", to, new)
                new = "\n".join(turn_line(line, own) for line in new.split("\n"))
                if new != text:
                    with open(path, "w", encoding="utf-8") as f:
                        f.write(new)
    both = own | set(KIT.split())
    pages = [os.path.join(top, "README.md")] + [os.path.join(top, "docs", p) for p in sorted(os.listdir(os.path.join(top, "docs"))) if p.endswith(".md")]
    for path in pages:
        with open(path, encoding="utf-8") as f:
            text = f.read()
        new = in_ticks(text, both)
        if new != text:
            with open(path, "w", encoding="utf-8") as f:
                f.write(new)


if __name__ == "__main__":
    main(sys.argv[1] if len(sys.argv) > 1 else ".")
