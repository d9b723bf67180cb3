#!/usr/bin/env python3
"""Respells this repository's own definitions and lemmas, once, after the kit's port.py: snake case, and camel case for what is spelled as a type.

usage: python3 tools/respell.py     at the top of the repository

It goes by whole names, from the list below (`Goes_on` is what port.py left of a name), in .antt and .rt files (strings aside) and between the backticks of the pages.
"""

import os
import re

NAMES = """
After-other All-silent Answered-counted At-code At-draft At-fresh At-stage Blank-from Cheapest-found Check-read Check-row Check-rows Distance-found
Figure-told First-against First-from First-none First-place Goes_on Leader-found Leads-other Length-set Lightest-found Message-decoded Message-encoded
Noise-told Only-form Reduced-form Reduced-read Row-popped Row-pushed Same-span Says-dependent Shows-message Sole-leader Spans-set Symbol-rows
Tells-dependence Tied-counted Too-dear Work-left Zero-exactly added-all added-costs after-answered after-length after-other after-pop after-row
after-word agree-below agree-next all-passed all-symbols alpha-times apart-zero at-information at-pivot at-tells basis-of before-longer begun-tells
below-24 below-lawful best-bound best-of-bound best-of-found best-of-more best-of-same best-other best-tells better-new better-none better-old
better-tells better-tied blank-cells blank-width cells-new cells-old cells-past cells-push-new cells-push-old cells-push-past cells-set-other
cells-set-same cells-spell cheapest-leader check-found check-inside check-place check-place-ascends check-place-at check-place-is check-place-of
check-places check-row check-row-information check-row-of check-row-other check-row-own check-row-read check-word check-word-check check-word-other
check-word-symbols check-word-syndrome checks-codeword checks-count checks-first checks-skip checks-take chosen-symbol cleared-span clearing-more
clearing-skip codeword-checks codeword-coset codeword-first codeword-in codeword-message codeword-minus codeword-none codeword-other codeword-word
coefficient-zero column-at column-first column-from combination-product combination-sum combination-symbol combined-lawful coset-codeword coset-some
cost-at cost-by cost-most cost-small cost-weight costs-fit costs-from costs-small count-reply covered-here covered-later cut-everywhere cut-is
cut-past cut-symbols cut-whole dash-spells dash-writes-none dependent-from dependent-to differences-zero digit-below digit-index digit-writes
distance-found distance-reply doubled-zero encoded-check encoded-information end-ahead end-ahead-more ending-all ending-more erased-costs
erased-lawful even-lawful every-at every2-at every3-at few-high few-highs few-low few-lows figure-reply first-cost first-in first-place first-zeros
form-count form-same four-laws generator-of grown-span grown-triangular hard-cost hard-costs hard-lawful hard-word held-holds holds-independent
holds-pop holds-push if-symbol if-symbol-same if-symbols in-first in-second in-u in-v index-fits index-more index-room index-tells index-zero
information-last information-new information-old information-other information-own information-product information-symbol information-total
informs-first informs-none informs-own informs-some inverse-below inverse-below-lt inverse-below-none inverse-is inverse-lt inverse-none
inverse-symbol inverse-zero is-codeword keeps-more kept-ends kept-form kept-is kind-no-front kind-no-number kind-no-order kind-no-parts kind-only
known-rest leads-from leads-long leads-on leads-other leads-symbols leads-to leads-word least-is least-other length-goes-on length-moves letter-writes
level-cost level-costs level-distance level-lawful level-word lightest-distance lightest-none lightest-some listed-ascends listed-cost listed-only
listed-word message-symbols minus-same minus-zero mod-mul-mod moved-below moved-index moved-last moved-next moved-split moved-zero mul-mod-mod
negative-is negative-none negative-product negative-symbol negative-zero never-refused new-at new-costs new-past new-symbols new-ways next-below
next-zero no-back no-costs no-lighter no-noise no-reading no-seal no-spans not-both not-spanned not-tied number-only old-at old-costs old-ways on-cost
on-symbols on-ways one-after one-character one-first one-kind one-parting one-reading one-symbols one-times one-total only-form order-digits
order-free order-only other-agrees other-bound other-leads other-tells other-to part-fits part-more part-symbols parted-none parted-only parts-of
parts-table pass-at path-cost path-word pivot-inside pivot-new pivot-old pivots-of places-fit places-inside places-rise polynomial-laws
polynomial-times pop-goes-on pop-moves pop-row power-more power-positive prices-small prime-laws prints-all prints-none product-as-symbol
product-assoc product-closed product-comm product-inverse product-left-none product-one product-one-right product-right-none product-sum
product-symbol product-zero progress-clear progress-end progress-on progress-scale progress-swap push-goes-on push-moves push-tells rank-fits
reads-back reads-cells reads-dash reads-no-length reads-no-symbol reduction-of refused-at refused-if remainder-more remainder-none remainder-times
rest-is row-bound row-end row-product same-cost same-trans same-with-row says-only scale-symbol scaled-all scaled-back scaled-span second-cost
second-in set-length share-symbol shifted-costs shows-ascii shows-or-mark sixteen-laws skip-high skip-low skip-other skip-rises sofar-more sofar-small
sole-leader some-way span-end span-product span-row span-sum span-symbols span-wider span-within span-zero spanned-by-units spanned-from-zero
spans-last spans-of spells-only spells-places spells-writable start-past states-are stored-cleared stored-ends stored-inside stored-listed stored-old
stored-own stored-span stored-wide sum-assoc sum-closed sum-left-none sum-negative sum-product sum-right-none sum-sum sum-symbol sum-zero
sum-zero-right swapped-span symbol-at symbol-below symbol-cells symbol-cost symbol-is symbol-no-less symbol-none symbol-one symbol-rows symbol-zero
symbols-are symbols-of symbols-right-none syndrome-index syndrome-is syndrome-of syndrome-symbol table-from table-start tabulated-more tail-same
taken-length tally-of tells-dependence three-laws total-more total-one total-product total-same total-sum total-symbol total-zero trace-all trace-more
trace-none trellis-of triangular-count triangular-fits triangular-independent two-laws unique-count unique-places unique-rows unit-symbols value-best
via-cost via-ways ways-at ways-fit weight-cost weight-minus weight-same width-set window-lawful with-new with-old with-room with-symbols with-within
without-spanned without-symbol without-triangular word-cost word-leads word-symbols written-more zero-apart zero-cost zero-from-spanned zero-index
zero-place zero-product zero-rows zero-share zero-symbol zero-times zeros-at
""".split()
TOKEN = re.compile(r"[^\s(){}\[\];,.\"`⟨⟩⌜⌝]+")
STRING = re.compile(r'"(?:[^"\\]|\\.)*"')
TICKED = re.compile(r"`[^`\n]*`")


def respelled(name):
    words = re.split("[-_]", name)
    return "".join(w[:1].upper() + w[1:] for w in words) if name[0].isupper() else "_".join(words)


NEW = {name: respelled(name) for name in NAMES}


def turned(text):
    return TOKEN.sub(lambda m: NEW.get(m[0], m[0]), text)


def outside_strings(text):
    parts, end = [], 0
    for m in STRING.finditer(text):
        parts += [turned(text[end : m.start()]), m[0]]
        end = m.end()
    return "".join(parts) + turned(text[end:])


def rewrite(path, turn):
    with open(path, encoding="utf-8") as f:
        old = f.read()
    new = turn(old)
    if new != old:
        with open(path, "w", encoding="utf-8") as f:
            f.write(new)


for folder, dirs, files in os.walk("crates"):
    dirs[:] = sorted(d for d in dirs if d != "out")
    for name in sorted(files):
        if name.endswith(".antt"):
            rewrite(os.path.join(folder, name), turned)
        elif name.endswith(".rt"):
            rewrite(os.path.join(folder, name), outside_strings)
for page in ["README.md"] + sorted(os.path.join("docs", p) for p in os.listdir("docs")):
    if page.endswith(".md"):
        rewrite(page, lambda text: TICKED.sub(lambda m: turned(m[0]), text))
