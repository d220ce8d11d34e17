#!/usr/bin/env python3
"""Spells the repository's own definitions and lemmas as Rattle's library does: words in snake case, types in camel case.

usage: python3 tools/respell.py            at the top of the repository, once, after the kit's port.py

It goes over every .rt and .antt file below crates/, word by word, and leaves comments and strings alone. It names each
word that it would spell like another word of the same file, and changes it all the same: in Rattle a function and a
word of a clause may share a name.
"""
import pathlib
import re

# Definitions, lemmas, fields and aliases, as they were spelled.
NAMES = """
All-terms All-worked Amounts-made Amounts-read Newly-opened Numbers-read One-worked Roots-of-all Sum-of Table-made
Table-read a-quarter above-capped above-each above-past above-small added-down added-narrow added-order added-push
added-sum added-up adds-all afters-linear all-at all-bounds all-businesses all-figures all-limited all-moderate
all-parts amount-fault amount-is amounts-fault amounts-held amounts-of-text amounts-right amounts-wrong and-false
answer-text asked-large asked-length asked-more at-downs at-k basic-members basic-pair basic-parts basic-single
basis-of before-half before-run before-twice behind-ge behind-run behind-three behind-two below-sum bounds-at
bounds-length bounds-more bounds-small breaks-of business-at businesses-are businesses-from businesses-terms by-places
cap-passes ceiling-root cell-le cells-next class-below classes-le classes-whole combination-is combination-text
count-fifteen count-push count-removed currency-short d-high d-is d-low d-own difference-exactly difference-terms
differs-terms distance-linear diversification-terms empty-same enter-full enter-is enter-refusal enter-room
enter-wrong entries-of-text entries-right entries-wrong entry-count entry-fault entry-filled equity-means equity-of
equity-parts equity-terms exact-when-equal factor-small fall-linear fault-text fields-of figure-numbered figures-terms
filled-diagonal filled-outside filled-small filled-symmetric finer-down finer-up first-before first-behind first-here
first-large first-later first-wrong fits-small flat-terms form-at form-finer-down form-finer-up form-rises form-same
from-none front-is front-le full-fault full-long full-other full-row full-squared global-equity health-means
health-module health-of health-parts health-terms held-length high-passes highs-all highs-are highs-of in-unit
interest-up-and-down is-pair judged-amounts judged-entries judged-extra judged-right judged-same kind-below kind-count
large-itself large-member larger-exactly last-is last-terms later-run later-words le-from-squares least-capital
least-of-a-third life-lines life-lines-are life-means life-module life-parts life-terms lives-of low-is low-passes
lower-finer lower-greatest lower-le lower-le-upper lower-next lower-rises lower-unique lows-are lows-of m-is m-own
mapped-none mapped-some market-means market-module market-of market-parts market-terms max-down max-up member-bound
members-of min-down min-up minimum-down minimum-terms minimum-up module-of module-same module-terms most-at
most-depths no-at no-digit-above no-digit-below no-fault non-life none-behind none-behind-part none-correlated
none-given none-large none-refused none-split none-stand nonlife-means nonlife-module nonlife-of nonlife-parts
nonlife-terms not-large nothing-terms number-none number-some o-own of-class of-kind of-kind-le of-table open-refusal
operational-down operational-terms operational-up other-equity our-widths over-finer over-ge over-least over-most
over-next own-terms pairs-add pairs-add-right pairs-eq pairs-le pairs-more pairs-most pairs-mul pairs-plus parts-some
per-line plain-removed plain-small premium-alike premium-means premium-reserve premium-terms push-fault push-four
push-three push-two rate-exactly rate-terms rated-terms refused-at replace-refusal room-at-all room-more root-by-root
root-exactly root-of-squares root-step rooted-terms roots-of-all row-le s-is s-own same-capped same-means same-widths
second-of shown-terms side-of size-at sized-at sizes-kept small-side small-sides some-before some-behind
some-large-passes some-passes some-root some-split some-stand span-finer spread-a spread-bb spread-bb-at-its-cap
spread-bb-below square-finer square-root square-root-terms square-small square-span square-sum square-under
square-weight squares-finer squares-form squares-le squares-within stand-four stand-one stand-three stand-two
stop-basic stop-minimum stop-operational stop-scr strike-none strike-one strike-refusal sum-add sum-at sum-eq
sum-finer sum-front sum-le sum-linear sum-mul sum-next sum-removed table-fault table-members table-sound
ten-times-finer term-bound term-value three-four times-root together-terms total-linear total-most total-squares
two-squares two-sum under-finer under-greatest under-le under-over upper-exact upper-finer upper-ge upper-inexact
upper-least upper-next upper-rises weight-finer weight-small whole-down whole-up widths-alike widths-are
widths-fifteen widths-ones with-lines with-tables within-limit within-most word-before words-run words-skip
work-out-refusal yes-at
widthsOf besideOf ratedOf rateOf differenceOf shownOf interestOf figuresOf fallOf currencyOf
""".split()

WORD = r"[A-Za-z_][A-Za-z0-9_'₀-₉]*(?:-[A-Za-z0-9_'+*₀-₉ℕ≤<]+)*"
ANTT = re.compile(r"(?P<skip>--[^\n]*)|(?P<word>" + WORD + ")")
RUST = re.compile(r"(?P<skip>//[^\n]*|\"(?:[^\"\\]|\\.)*\")|(?P<word>" + WORD + ")", re.S)


def respelled(name):
    if name[0].isupper():
        return "".join(part[0].upper() + part[1:] for part in name.split("-"))
    name = name.replace("-", "_")
    return re.sub(r"[A-Z]", lambda m: "_" + m.group().lower(), name)


NEW = {name: respelled(name) for name in NAMES}


def turn(path):
    text = path.read_text(encoding="utf-8")
    form = ANTT if path.suffix == ".antt" else RUST
    words = {m["word"] for m in form.finditer(text) if m["word"]}
    for name in sorted(words & NEW.keys()):
        if NEW[name] in words:
            print(f"{path}: {name} is now spelled like another word there: {NEW[name]}")
    new = form.sub(lambda m: m.group() if m["skip"] else NEW.get(m["word"], m["word"]), text)
    if new != text:
        path.write_text(new, encoding="utf-8")
    return new != text


def main():
    paths = [p for p in sorted(pathlib.Path("crates").rglob("*")) if p.suffix in (".rt", ".antt") and "out" not in p.parts]
    print(sum(turn(p) for p in paths), "files changed of", len(paths))


main()
