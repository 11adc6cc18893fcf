#!/usr/bin/env python3
"""Respells the repository's own definitions and lemmas: types in camel case, everything else in snake case.

usage: python3 tools/respell.py        at the top of the repository, once, after the kit's port.py

It changes whole names alone, in the Rattle files and must-fail edits of crates/, and between backticks in README.md
and docs/. `bit-and`, `bit-or` and `bit-xor` keep their dash, which joins the names of two definitions: with an
underscore they would fall together with the library's operations on words.
"""
import pathlib
import re

OLD = """
    All-added Body-fault Ends-fault Ends-read Entry-after Facts-fault
    Facts-read Finds-pair First-absent First-at-fault First-clash First-fault
    First-lacking First-partner Free-order Goal-at Goal-read Goal-told
    Holds-of-runs Is-maker Is-sound Job-fault Job-read Jobs-read
    Judged-from Judged-well Kept-behind Largest-with Layer-zero Layers-settle
    List-fault Lists-of-calls Made-below Needs-reached Next-layer Not-due
    One-list One-task Order-of Plan-from Plans-are-linear Plans-reach
    Read-below Ready-at Ready-jobs Round-fault Rounds-have-orders Rounds-fit Is-distance Row-limits
    Row-read Same-task Settled-after Sheet-fault So-far Sound-jobs
    Task-fault Task-file Told-after Told-by Verdict-on Worked-cases
    Wrote-row Zones-agree absent-at absent-found absent-free adds-are
    adds-below adds-it adds-of admitted-is after-adding all-fair?
    all-fine all-layers all-places allowed-is and-four any-level
    any-more apart-lawful at-fault at-trailing before-trailing begun-none
    behind-here below-high below-is below-low below-shares beside-found
    beside-made beside-of bit-first bit-less bit-mod bit-mono
    bit-one bit-op bit-pow bit-shr bit-strict bit-suc
    bit-zero by-jobs by-keeping bytes-follow cell-zero clean-below
    count-all count-few count-le count-more count-more-at dec-absent
    dec-adds dec-all dec-any dec-beside dec-clash dec-clashes
    dec-enters dec-imp dec-in dec-job dec-joined dec-kept
    dec-lacks dec-layer dec-made dec-maker dec-needs dec-one
    dec-reached dec-short dec-sum dec-together dec-two dec-unmet
    dec-way decides-any decides-apart decides-every decides-false decides-goal
    decides-gone decides-if decides-interferes decides-lowest decides-on-job decides-reached
    decides-some decides-spoils decides-then decides-true deletes-are deletes-of
    enters-if-made enters-more enters-swap entry-7 entry-8 entry-number
    entry-number-alike entry-number-below entry-number-down entry-number-onto entry-number-same entry-number-small
    entry-number-swap entry-number-up entry-number-within entry-once every-passes excess-of
    fact-count facts-of fair-at fair-is fair-job fair-row
    fault-is fault-not-allowed fault-not-sound fault-number fault-round few-facts
    few-jobs few-rows finds-lacks fine-at first-at first-fault
    first-inv fresh-here fresh-new from-1-4 from-1-4-admitted from-1-4-settles
    from-1-4-table from-1-4-tested from-1-4-told gathered-all gathered-more gathering-all
    gathering-more gathering-none gathering-past goal-is goal-missed goal-reached
    goal-unread goal-up grown-false grown-true has-below has-high
    has-low has-op has-past has-set-of helps-more helps-same
    here-or-not holds-all holds-of-runs in-part in-round in-set-of
    includes-insert interferes-swap is-less is-set-of job-and-kept job-body
    job-bytes job-past job-within joining-all joining-more joining-none
    joint-reached joint-within judged-well kept-reached kept-within largest-of
    largest-with last-layer layer-read layer-swap layer-up layers-down
    layers-settle length-is lift-0-1-2 lift-0-1-2-3 lift-0-1-2-3-shortest lift-0-2
    lift-01 lift-admitted lift-after-three lift-clash lift-distance lift-entry-7
    lift-entry-8 lift-from-1-4 lift-goal lift-jobs lift-missing lift-settles
    lift-sound lift-table lift-tested lift-told lift-told-3 lift-without-3
    linear-from listed-all listed-made listed-once listed-result lists-of-calls
    loaded-admitted looked-more looked-none looked-past lowest-high lowest-low
    lowest-one m-is m-of made-enters made-if-enters made-past
    made-within mark-at met-before met-here met-more met-none
    moved-admitted n-is n-of needs-below needs-of never-at
    new-fresh new-next new-swap new-unread next-new next-pair
    next-right no-absent no-clash no-excess no-fault no-jobs
    no-lack no-round none-high none-low none-set not-ahead
    not-before not-both not-disjoint not-due not-reached not-rising
    of-beside on-job one-fault one-first one-verdict opened-all
    opened-more opened-none or-four other-mark over-here pair-absent
    pair-count pair-count-few pair-count-le pair-count-more pair-count-none pair-count-room
    pair-count-small pair-count-suc pair-free pair-none paired-both paired-insert
    paired-past paired-set part-found part-more partner-absent partner-found
    partner-free partner-none partner-starts passed-all passed-more plan-sound
    plans-are-linear plans-reach present-at present-below reached-subset reached-turn
    reaches-from read-layer read-skip readied-at record-bytes rest-fault
    result-below result-is right-at round-of rounds-dropped rounds-end
    rounds-have-orders rounds-length rounds-long rounds-next rounds-of rounds-pushed
    row-few row-mono run-kept same-is same-members same-part
    same-result same-room set-of shared-all shared-more shared-none
    sheet-bytes sheet-of single-file single-file-lawful single-high single-low
    singles-more singles-skip size-at so-far-all so-far-keep so-far-none
    so-far-up some-fact some-found some-job some-listed some-made
    some-member some-none soon-4 soon-5 sound-is-plan sound-plan
    stable-all stable-or-fresh still-ready subset-reached sum-strict t-is
    t-low task-bytes to-come told-after told-by told-once
    twin-admitted twin-apart twin-clash twin-jobs twin-settles twin-single-file
    twin-single-settles twin-single-table twin-single-tested twin-single-told twin-sound twin-table
    twin-tested twin-told up-alike verdict-is verdict-on walk-starts
    ways-in ways-out withheld-admitted without-3 without-3-admitted without-3-closed
    without-3-settles without-3-table without-3-tested without-3-told without-last worked-cases
    worked-story writing-all writing-none written-round wrong-length wrote-more
    wrote-skip xor-four zones-agree
""".split()


def new(name):
    if name[0].isupper():
        return "".join(part[0].upper() + part[1:] for part in name.split("-"))
    return name.replace("-", "_")


NAMES = {name: new(name) for name in OLD}
TOKEN = re.compile(r"(?<![\w'?-])[A-Za-z_][\w'?]*(?:-[\w'?]+)+")


def respelled(text):
    return TOKEN.sub(lambda m: NAMES.get(m[0], m[0]), text)


def rewrite(path, change):
    text = path.read_text(encoding="utf-8")
    turned = change(text)
    if turned != text:
        path.write_text(turned, encoding="utf-8")


def main():
    for path in sorted(pathlib.Path("crates").rglob("*")):
        if path.suffix in (".rt", ".antt", ".edit") and "out" not in path.parts:
            rewrite(path, respelled)
    for page in [pathlib.Path("README.md"), *sorted(pathlib.Path("docs").glob("*.md"))]:
        rewrite(page, lambda text: re.sub(r"`[^`\n]+`", lambda m: respelled(m[0]), text))


main()
