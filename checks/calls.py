#!/usr/bin/env python3
"""Looks whether each crate shows what other programs call of it: `CALLS` has these names by crate, and the program in docs/CALLING.md names
some. No later move loses one silently.

usage: calls.py

A crate shows a name where its src/lib.rt has it, as an item or behind `pub use`; a method (written Type::method) where a file of the crate has
`pub fn` of that name, or a trait's `fn`. docs/DECISIONS.md ("Where public calls are") says what stands in the place of a call that has
another form than callers may expect. Of the program each name that it imports is to be shown, each `Type::name` is to be a call or a variant of the
type's crate, each call of the planner one of `Planner`, and the line of crates.txt above it names the crates that it imports; whether it
compiles `rt try` alone can tell. The status is 1 where a name isn't shown, with a line for each.
"""

import glob
import os
import re
import sys

TOP = os.path.join(os.path.dirname(os.path.abspath(__file__)), os.pardir)
CALLS = {
    "mst_ids": "Mac BridgeId PortId Cost Name ConfName VidSet BridgeNo PortNo LanNo parse_mac parse_vids auto_cost",
    "mst_lang": "parse_line Line Edit Query Fault Fault::code Fault::text",
    "mst_net": "Network Ready Ahead Contents Saved Refusal Table Network::new Network::prepare Network::ahead Network::commit Network::abandon",
    "mst_tables": "Contents Table Refusal Refusal::code Refusal::text",
    "mst_edits": "put_edits put_saved put_digest",
    "mst_view": "View View::lag",
    "mst_lag": "view lag_text",
    "mst_config": "digest hmac_md5 mcid Regions regions_of",
    "mst_vector": "CistVector MstiVector Metric CistMetric MstiMetric",
    "mst_topology": "Topology",
    "mst_settle": "Settler Settler::from_scratch Settler::reserve Settler::touch Settler::touch_bridge Settler::repair Settler::vector "
    "Settler::designated Settler::settlings",
    "mst_forest": "Forest Settled Forest::cist Forest::msti Forest::designated Forest::settlings",
    "mst_trees": "forest_of repaired_forest",
    "mst_roles": "Role role forwards active active_ports",
    "mst_vlan": "reach islands_of Island BridgeList LanList",
    "mst_report": "Planner Planner::new Planner::stage Planner::apply Planner::rehearse Planner::settle Planner::answer Planner::refusal Planner::put "
    "Planner::mark Planner::settlings Planner::network Planner::view Planner::forest Planner::settled",
    "mst_bpdu": "read_line Bpdu BpduFault Difference Field Value",
    "mst_compare": "sender compare",
    "mst_tool": "run run_within check check_within status Form",
    "mst_io": "Outcome RunFault Source Sink Failed FromRead ToWrite TURNS",
}


def text_of(path):
    with open(path, encoding="utf-8") as file:
        return file.read()


def shown(crate):
    """The names that a crate's lib.rt has."""
    text = re.sub(r"//.*", "", text_of(f"{TOP}/crates/{crate}/src/lib.rt"))
    given = {name for used in re.findall(r"\bpub use ([^;]+);", text) for name in re.findall(r"\w+", used)}
    return given | set(re.findall(r"\bpub (?:fn|struct|enum|trait|const|type|mod) (\w+)", text))


def methods(crate):
    return {name for path in glob.glob(f"{TOP}/crates/{crate}/src/**/*.rt", recursive=True) for name in re.findall(r"\bpub fn (\w+)", text_of(path))}


PROGRAM = re.compile(r"^    (\w+): ((?:mst_\w+ ?)+)\n.*?```rust\n(//!.*?)```", re.DOTALL | re.MULTILINE)


def variants(crate):
    """What may be the variants of a crate's enumerations."""
    return {name for path in glob.glob(f"{TOP}/crates/{crate}/src/**/*.rt", recursive=True) for name in re.findall(r"^    (\w+)(?=[ ,({])", text_of(path), re.MULTILINE)}


def owner(crate, name):
    """The crate that has what a crate gives on."""
    text = re.sub(r"//.*", "", text_of(f"{TOP}/crates/{crate}/src/lib.rt"))
    return next((its for its, used in re.findall(r"\bpub use (mst_\w+)::([^;]+);", text) if name in re.findall(r"\w+", used)), crate)


def lost_in_program():
    """What the program of docs/CALLING.md names that isn't there."""
    found = PROGRAM.search(text_of(f"{TOP}/docs/CALLING.md"))
    if not found:
        return ["docs/CALLING.md has no program below a line of crates.txt"]
    code = re.sub(r"//.*", "", found[3])
    crate_of = {name: crate for crate, its in re.findall(r"^use (mst_\w+)::\{?([\w, ]+)\}?;", code, re.MULTILINE) for name in its.split(", ")}
    lost = [f"the program imports {name}, and {crate} shows none" for name, crate in crate_of.items() if name not in shown(crate)]
    lost += [f"the program is to name {it} in crates.txt" for it in set(crate_of.values()) ^ set(found[2].split())]
    for name, its in sorted(set(re.findall(r"\b([A-Z]\w+)::(\w+)", code))):
        crate = name in crate_of and owner(crate_of[name], name)
        lost += [f"the program has {name}::{its}, and {crate} hasn't"] if crate and its not in methods(crate) | variants(crate) else []
    planner = methods("mst_report")
    return lost + [f"the program calls planner.{it}, and Planner hasn't that" for it in sorted(set(re.findall(r"\bplanner\.(\w+)\(", code)) - planner)]


def main():
    lost = lost_in_program()
    for crate, names in CALLS.items():
        if not os.path.isdir(f"{TOP}/crates/{crate}"):
            lost.append(f"there is no crate {crate}")
            continue
        here, called = shown(crate), methods(crate)
        lost += [f"{crate} shows no {it}" for it in names.split() if not (it.split("::")[1] in called if "::" in it else it in here)]
    print("\n".join(lost) if lost else f"{len(CALLS)} crates show {sum(len(it.split()) for it in CALLS.values())} names that other programs call")
    return 1 if lost else 0


if __name__ == "__main__":
    sys.exit(main())
