#!/usr/bin/env python3
"""Checks that the documents say what the sources have, and that both keep the rules of the house.

Prints a line for each check, and below it what is wrong. Nothing is proved or built; it takes some seconds.
Usage: tests/documents.py [CHECK ..]      the checks of these names alone
       tests/documents.py command NAME    which of CONTRIBUTING's places lack this command
       tests/documents.py --write         writes docs/reference/, and what is made in other pages
       tests/documents.py --order         the lines of crates.txt, each after the crates that it stands on
       tests/documents.py --list CHECK    what tests/limits.txt lets through
       tests/documents.py --limits        lowers the numbers of tests/limits.txt to what there is
"""

import sys

import reference_pages
from checks import citations, house, ledger, mutants, named, pages, places, secrets
from checks.sources import ROOT


def check_reference():
    """docs/reference/, and what is made in other pages, are what the sources say; the promise has a short list"""
    yield from reference_pages.differences()


CHECKS = [
    pages.check_links, pages.check_quotations, pages.check_examples, pages.check_paths, pages.check_figures,
    citations.check_names, citations.check_promises, citations.check_meanings, citations.check_architecture,
    citations.check_commands, citations.check_refusals, citations.check_order, places.check_places, check_reference,
    house.check_lengths, house.check_columns, house.check_imports, house.check_comments, house.check_errors, house.check_words, house.check_cells, house.check_costs, house.check_scripts,
    house.check_chain, named.check_libraries, named.check_gated, house.check_edits, ledger.check_ledger, house.check_waiting, mutants.check_mutants,
    secrets.check_secrets,
]


REMARKS = {"waiting": ledger.remarks, "mutants": mutants.remarks, "costs": house.remarks_of_costs,
           "scripts": house.remarks_of_scripts}


def run(names):
    """Prints each check and what is wrong; what is left out fails nothing, and .ci/run lists it."""
    status = 0
    for check in CHECKS:
        name = check.__name__.removeprefix("check_")
        if names and name not in names:
            continue
        wrong = list(check())
        remarks = REMARKS.get(name, list)()
        print(f"{'wrong' if wrong else 'ok'}: {name}: {check.__doc__}", *wrong, sep="\n    ")
        print(*remarks, sep="\n", end="\n" if remarks else "")
        status |= bool(wrong)
    return status


def order():
    lines = (ROOT / "crates.txt").read_text().split("\n")
    by_name = {line.split(":")[0].split()[0]: line for line in lines if line and not line.startswith("#")}
    print(*(by_name[name] for name in citations.in_order()), sep="\n")


def listed(check):
    for name, lines in house.by_crate(check).items():
        print(f"{name}: {len(lines)}", *lines, sep="\n    ")


def main(words):
    other = {"command": places.report, "--write": reference_pages.write, "--order": order, "--list": listed, "--limits": house.lower_limits}
    if words[:1] and words[0] in other:
        return other[words[0]](*words[1:])
    known = {check.__name__.removeprefix("check_") for check in CHECKS}
    if not set(words) <= known:
        print(f"the checks are {', '.join(sorted(known))}")
        return 2
    return run(words)


if __name__ == "__main__":
    sys.exit(main(sys.argv[1:]))
