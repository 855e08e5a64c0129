#!/usr/bin/env python3
"""Bring the repository's own definitions and lemmas to snake case.

Run once, at the top of the checkout, after the kit's port.py. Names of types, modules, source functions, exported C names,
strings, inputs and outputs stay. A lemma that would fall together with a function or definition of its name gets `_lem`.
"""
import collections
import glob
import re
import sys

# Names that would fall together in snake case, or with a function of the sources.
APART = {
    "byPlace": "plan_by_place",
    "by-cores": "by_cores_lem",
    "core-in": "core_within",
    "and-then": "and_then_lem",
    "end-met": "end_met_lem",
    "first-bad": "first_bad_lem",
    "four_bytes": "four_bytes_lem",
    "is-source": "is_source_lem",
    "lead-of": "lead_of_lem",
    "head-of": "head_of_lem",
    "least-free": "least_free_lem",
    "left_over": "left_over_lem",
    "made_by": "made_by_lem",
    "made-makespan": "made_makespan_lem",
    "masked-at": "masked_at_lem",
    "of-bytes": "of_bytes_lem",
    "of-numbers": "of_numbers_lem",
    "plan-read": "plan_read_lem",
    "refused-by": "refused_by_lem",
    "says-no": "says_no_lem",
    "verdict-by": "verdict_by_lem",
    "word-time": "word_time_lem",
    "next-ready": "next_ready_lem",
    "start-at": "start_at_lem",
    "end-at": "end_at_lem",
    "exclusive-start": "exclusive_start_lem",
    "rows-good": "rows_good_lem",
    "edge-good": "edge_good_lem",
}
HEAD = re.compile(
    r"^\s*(?:(?:abbrev|unfoldable) )?(?:pub )?(?:record |data )?"
    r"([^\s(){}.,;:\"=]+)(?: ?\{[^}]*\})*(?: \([^)]*\))* :"
)
TOKEN = re.compile(r"[^\s(){}\[\].,;:\"`]+")


def snake(name):
    if name[0].islower():
        name = re.sub(r"(?<=[a-z0-9])[A-Z]", lambda m: "_" + m.group(0).lower(), name)
    return name.replace("-", "_")


def defined():
    names = set()
    for path in glob.glob("crates/*/specs/*.antt") + glob.glob("crates/*/proofs/*.antt"):
        for line in open(path):
            if not line.lstrip().startswith("--"):
                found = HEAD.match(line)
                if found:
                    names.add(found.group(1))
    return names


def main():
    names = defined()
    turned = {n: APART.get(n, snake(n)) for n in names}
    turned = {n: s for n, s in turned.items() if n != s}
    if "sumBelow" not in turned:
        sys.exit("respell: nothing to do; this runs once")
    together = collections.defaultdict(set)
    for n in names:
        together[turned.get(n, n)].add(n)
    for s, of in sorted(together.items()):
        if len(of) > 1 and of & turned.keys():
            print("together:", s, sorted(of))

    def turn(text):
        return TOKEN.sub(lambda m: turned.get(m.group(0), m.group(0)), text)

    def turn_outside_strings(text):
        parts = re.split(r'("(?:[^"\\\n]|\\.)*")', text)
        return "".join(p if i % 2 else turn(p) for i, p in enumerate(parts))

    paths = glob.glob("crates/**/*.antt", recursive=True)
    paths += glob.glob("crates/**/*.edit", recursive=True)
    paths += glob.glob("crates/*/src/*.rt")
    for path in paths:
        if "/out/" in path:
            continue
        text = open(path).read()
        new = turn_outside_strings(text) if path.endswith(".rt") else turn(text)
        if path.endswith(".edit"):
            new = re.sub(r"\((\w+) \.([a-z]\w*)\)", r"\1.\2", new)
            new = re.sub(r"(\w) \.([a-z])", r"\1.\2", new)
        if new != text:
            open(path, "w").write(new)
    for path in glob.glob("docs/*.md") + ["README.md"]:
        text = open(path).read()
        new = re.sub(r"`[^`\n]+`", lambda m: turn(m.group(0)), text)
        if new != text:
            open(path, "w").write(new)
    print("respell:", len(turned), "names")


main()
