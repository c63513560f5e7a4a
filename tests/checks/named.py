"""Checks that what is relied on by its name is there: the kit's libraries, and the edits that the gate has to try; and how long the
longest chain of crates is."""

import functools
import re

from .citations import CRATES
from .pages import DOCS
from .sources import ROOT

# What does this work in the program, so that no code here does it.
LIBRARIES = ("sha2", "base64", "hex", "toml", "jiff", "thiserror")
# The command line has no options, so no library reads it.
UNUSED = ("clap",)

# The wrong programs that a reader would try first. Each turns a promise, so the gate tries it at each run.
TRIED_AT_EACH_RUN = {
    "authority_core": ["the_path_of_another_entry"],
    "cosigner_core": ["advances_to_the_held_size", "always_exhausted", "opens_at_index_0", "signs_before_it_records"],
    "der_core": ["long_form_below_128"],
    "drill_core": ["an_empty_device_is_the_output"],
    "frame_pool": ["finds_the_frame_of_another_level"],
    "hss_keys": ["a_signature_uses_two_numbers"],
    "journal_core": ["read_past_the_end", "record_kept_after_a_closed_commit_byte", "start_without_its_last_sync"],
    "monitor_core": ["nothing_is_reported"],
    "mtc_top": ["always_output_failed", "always_room_failed", "missing_name_reported_as_a_fault"],
    "quarrel_core": ["always_agree"],
    "relying_party": ["falls_back_to_signatures", "one_cosigner_counted_twice"],
    "tile_store": ["a_frame_let_go_once_it_is_read"],
    "tree_cache": ["a_cache_keeps_no_nodes"],
    "tree_core": ["accepts_a_hash_too_many"],
    "tree_proofs": ["compares_the_root_alone"],
    "world_core": ["an_invented_pair", "stands_without_its_entry", "stands_without_its_key"],
}


def of_the_kit():
    """The kit's crates that crates.txt names."""
    return {need for crate in CRATES.values() for need in crate.needs if need not in CRATES}


def is_used(name):
    """Whether a source of a crate that stands on this library brings it in."""
    use = re.compile(rf"^\s*(?:pub )?use {name}\b", re.M)
    return any(use.search(file.text) for crate in CRATES.values() if name in crate.needs for file in crate.files)


def believed():
    """The kit's crates that BELIEFS names among what is trusted."""
    row = re.search(r"^\| the kit's crates (.*?) \|", (DOCS / "BELIEFS.md").read_text(), re.M)
    return set(re.findall(r"`(\w+)`", row[1])) if row else set()


def check_libraries():
    """the kit's libraries do the work that is theirs, and BELIEFS names those of crates.txt, no more and no less"""
    yield from (f"{name}: no crate of crates.txt brings it in" for name in LIBRARIES if not is_used(name))
    yield from (f"{name}: crates.txt names it" for name in UNUSED if name in of_the_kit())
    yield from (f"{name}: crates.txt names it, and BELIEFS doesn't" for name in sorted(of_the_kit() - believed()))
    yield from (f"{name}: BELIEFS names it, and crates.txt doesn't" for name in sorted(believed() - of_the_kit()))


def check_gated():
    """the edits that turn the promises stand where the gate tries them at each run"""
    for name, edits in TRIED_AT_EACH_RUN.items():
        for edit in edits:
            path = ROOT / "crates" / name / "must-fail" / f"{edit}.edit"
            if not path.is_file():
                yield f"{path.relative_to(ROOT)}: is not there"


@functools.cache
def chain_to(name):
    """A longest chain of crates up to this one, from the lowest on."""
    below = [chain_to(need) for need in CRATES[name].needs if need in CRATES]
    return (*max(below, key=len, default=()), name)


def longest_chain():
    """("crates", what) for each crate of a longest chain: how long it is bounds the gate from below."""
    chain = max((chain_to(name) for name in CRATES), key=len)
    yield from (("crates", f"{name} is number {place} of the chain") for place, name in enumerate(chain, 1))
