#!/usr/bin/env python3
"""Compares what the built program prints with --json with what it prints without.

usage: json_lines.py PROGRAM

Over the scripts of the examples, those of the worked rows and some drawn ones it runs each query and each question twice. From each
record the line of the text is made again, by the table of crates/mst_kinds: all lines of a text have to come so, and what a record has
besides is what stood above its line. Each key has the type that docs/JSON.md says, in every object, and none is there twice. Then it
looks at names that read like words of the texts, and asks for what users ask for, with no state: in Python, and by jq and pandas where
the machine has them. Where it has python3-jsonschema (4.0 or later), all that was printed is held against docs/mstplan.schema.json:
each object and each record against the definition of its kind, a line of each kind against the whole, and each record with a key
less, with a key more, and with a null where none may be has to be refused; what may be null there has to be so somewhere. The exit
status is 1 where something differs. The gate runs it on the program that it has built (.ci/run).
"""

import collections
import concurrent.futures
import glob
import importlib
import itertools
import json
import os
import re
import shutil
import subprocess
import sys
import tempfile

TOP = os.path.join(os.path.dirname(os.path.abspath(__file__)), os.pardir)
SAMPLES = os.path.join(TOP, "examples")
# nothing is to be left beside the script that is imported
sys.dont_write_bytecode = True

import drawn_scripts  # noqa: E402

DRAWN = 16
QUERIES = ("showlag", "showregions", "shownotes", "showplan", "changes", "save", "digest")
ASKED = re.compile(r"\s*(show\w+|changes|save|digest)(\s|$)")
MOST_EXPLAINED = 3
ALL_EXPLAINED = 20
MOST_IN_PAIRS = 20
MOST_TOLD = 40
# Their answers say no words behind these.
BARE = ("diff", "verify", "steps", "edits")
# The answer to what a script and a policy by standard input ask says so of these.
BY_POLICY = {("sweep", "-"): ["sweep", "risks"]}
# What is promised of each script: little of it is kept.
RISKS = """risk duct lan *
risk hall bridge A,core1
risk hall lan X,core2-dist2
risk pair bridge A,B
"""
PROMISES = """# what is promised
root 0 A
finally root 0 B
together 1-4094 *
always together 1-4094 *
finally always reach 1-9 *
after lan * reach 1-20 *
after risk * reach 1-20 *
root 0 B next A
root 0 core2 next core1
root 1 A
region *
role 0 *:* Disabled
role 1 *:* Root
always reach 1-4094 *
apart 10,20 * *
leaves 10 A*
leaf 0 *
depth 0 0
hops 1-4094 0 *
via 10 acc1 acc2 core2
always via 1 A B A
always carries X 1-10
avoids core1-dist1 1-4094
always avoids X 1-4094
always fits
after lan nothing fits
roots
"""
# What is done to each network: some of it to bridges, LANs and ports that are there.
CHANGE = """mark
bridge A off
lan X down

settreeprio core1 0 8
settreeprio B 0 0
showplan
settreeprio nobody 0 0
no such line

# nothing

bridge A on
lan X up
setportvlans B 1 none

kind B rstp

delport A 1
"""
# no script here comes to these: contests in which no component differs, a root port without a rival, an internal cost over its limit that a
# promise finds, and a port that none of the settings in question lets forward
RARE = {("VerifyLine", "InternalCost"), ("ContestLine", "DesignatedOver"), ("ContestLine", "RootAlone"), ("ContestLine", "RootOver"), ("AdviseLine", "BecauseTried")}
# and so to these nulls, by the key and the kind: identifiers of no bridge of the network, contests that a bridge's own vector is in, and
# the network itself as a place where a promise of what stays together isn't kept: nothing is before it
RARE_NULLS = {
    ("failure", "VerifyLineTogether"),
    *itertools.product(("root", "regional", "designated_bridge"), ("TreeLineBridgeInCist", "TreeLineBridgeInMsti")),
    *itertools.product(("winner", "loser"), ("ContestLineRootAlone", "ContestLineRootOver", "ContestLineRootByCost", "ContestLineRootById")),
}
# Whether a failure cuts this VID is asked of the campus.
VID = 30


def read(*path):
    with open(os.path.join(TOP, *path), encoding="utf-8") as file:
        return file.read()


# ---- the table of lines, and the types of keys

Kind = collections.namedtuple("Kind", "enum name first parts")
PARTS = re.compile(r"(\w+)::(\w+) =>\s+parts!\[(.*?)\]")
FIRST = re.compile(r"(\w+)::(\w+) => Mark::(\w+)")
KEY = re.compile(r"^\| `(\w+)` \| ([^|]+) \| [^|]+ \|$", re.MULTILINE)


def kinds():
    """Each kind of lines: its first word, and its parts, with the words of the texts and of the records."""
    texts = {it: dict(re.findall(rf'{it}::(\w+) => b"(.*?)"', read("crates", "mst_kinds", "src", it.lower() + ".rt"))) for it in ("Key", "Mark")}
    for path in sorted(glob.glob(os.path.join(TOP, "crates", "mst_kinds", "src", "*.rt"))):
        text = read(path)
        firsts = {(enum, name): texts["Mark"][mark] for enum, name, mark in FIRST.findall(text)}
        for enum, name, parts in PARTS.findall(text):
            parts = [part_of(part.split(), texts) for part in filter(None, parts.split(", "))]
            if enum == "VerifyLine":
                # the table has these lines behind a step, where the step's number is in front; two of them stand behind none
                yield from [Kind("StepVerifyLine", name, firsts[enum, name], parts)] * (name not in ("Same", "Counts"))
                parts = parts[1:]
            yield Kind(enum, name, firsts[enum, name], parts)


def part_of(words, texts):
    """A part: its place, and the words that belong to it."""
    if words[0] == "Mark":
        return ("Mark", texts["Mark"][words[1]])
    return (words[0], *(texts[it][word] for it, word in zip(("Key", "Mark"), words[1:])))


KINDS = list(kinds())
TYPES = dict(KEY.findall(read("docs", "JSON.md").partition("## Keys")[2]))


def members(kind):
    """The keys of its records, in their order, each with the word that it has there if it is always the same."""
    for place, *words in kind.parts:
        if place in ("Port", "AbovePort"):
            yield from (("bridge", None), ("port", None))
        elif place != "Mark":
            yield (words[0], words[1] if words[1:] else None)


def fits(kind, values):
    """Whether these are the members of a record of this kind."""
    wanted = list(members(kind))
    return [key for key, _ in wanted] == list(values) and all(word in (None, values[key]) for key, word in wanted)


def kind_of(first, values, of_queries=False):
    """The kind of these, which is to be one."""
    found = [kind for kind in KINDS if kind.first == first and (kind.enum == "Query") == of_queries and fits(kind, values)]
    if len(found) != 1:
        raise ValueError(f"{len(found)} kinds fit {first} {values}")
    return found[0]


# ---- values, by the types of their keys


def port_text(port):
    return f"{port['bridge']}:{port['port']}"


def runs_text(runs):
    return ",".join(f"{first}-{last}" if first < last else str(first) for first, last in runs)


# What a value of each type is in a line: its words.
WORDS = {
    "string": lambda it: [it],
    "number": lambda it: [str(it)],
    "port": lambda it: [port_text(it)],
    "port or null": lambda it: [port_text(it)],
    "VIDs": lambda it: [runs_text(it)] if it else [],
    "array of strings": lambda it: it,
    "array of numbers": lambda it: [str(number) for number in it],
    "array of ports": lambda it: [port_text(port) for port in it],
    "array of active ports": lambda it: [port_text(port) if port["member"] else f"[{port_text(port)}]" for port in it],
    "array of arrays of strings": lambda it: [",".join(names) or "-" for names in it],
    "object": lambda it: ["-" if value is None else str(value) for value in it.values()],
    "failure": lambda it: [word for pair in it.items() for word in pair],
    "two numbers": lambda it: ["-".join(map(str, it))],
}


def words_of(key, value):
    if value is None:
        return [{"port or null": "own", "failure": "now"}.get(TYPES[key], "-")]
    return WORDS[TYPES[key]](value) or ["-"]


def line_of(kind, values):
    """The line that a record of this kind stands for."""
    words = [kind.first]
    for place, *its in kind.parts:
        if place in ("Mark", "Said"):
            words.append(its[-1])
        elif place == "Key":
            words += words_of(its[0], values[its[0]])
        elif place == "Commas":
            words.append(",".join(words_of(its[0], values[its[0]])))
        elif place == "Port":
            words.append(port_text(values))
    return " ".join(words)


def is_number(value):
    return isinstance(value, int) and not isinstance(value, bool) and value >= 0


def is_port(value):
    return isinstance(value, dict) and list(value) == ["bridge", "port"] and isinstance(value["bridge"], str) and is_number(value["port"])


def is_active(value):
    return isinstance(value, dict) and list(value) == ["bridge", "port", "member"] and isinstance(value["member"], bool)


def are_runs(value):
    """Whether these are the longest runs of VIDs, in rising order."""
    if not (isinstance(value, list) and all(isinstance(run, list) and len(run) == 2 and all(map(is_number, run)) for run in value)):
        return False
    return all(first <= last for first, last in value) and all(one[1] + 1 < other[0] for one, other in itertools.pairwise(value))


def all_are(test):
    return lambda value: isinstance(value, list) and all(map(test, value))


def is_string(value):
    return isinstance(value, str)


def is_promise(value):
    """Whether this is what is told of a promise: it holds or doesn't just where it is judged in some network."""
    if not (isinstance(value, dict) and list(value) == ["line", "promise", "scope", "finally", "network_count", "holds"]):
        return False
    good = is_number(value["line"]) and is_string(value["promise"]) and value["scope"] in (None, "always", "after lan", "after bridge", "after risk")
    return good and isinstance(value["finally"], bool) and is_number(value["network_count"]) and (value["holds"] in (True, False) if value["network_count"] else value["holds"] is None)


TESTS = {
    "string": is_string,
    "number": is_number,
    "port": is_port,
    "port or null": is_port,
    "VIDs": are_runs,
    "array of strings": all_are(is_string),
    "array of numbers": all_are(is_number),
    "array of ports": all_are(is_port),
    "array of active ports": all_are(is_active),
    "array of arrays of strings": all_are(all_are(is_string)),
    "object": lambda value: isinstance(value, dict),
    "failure": lambda value: isinstance(value, dict) and len(value) == 1 and set(value) <= {"lan", "bridge", "risk"},
    "two numbers": lambda value: isinstance(value, list) and len(value) == 2 and all(map(is_number, value)) and value[0] <= value[1],
    "array of promises": all_are(is_promise),
}


def has_types(values):
    """Whether each key has its type, and so has each in an object below it. A list is empty where nothing is there, all else is null."""
    for key, value in values.items():
        if value is None:
            good = not TYPES[key].startswith(("array", "VIDs", "two"))
        else:
            good = TESTS[TYPES[key]](value) and (TYPES[key] not in ("object", "failure") or has_types(value))
        if not good:
            raise ValueError(f"{key} isn't {TYPES[key]}: {value}")
    return True


def once(pairs):
    """An object, in which no key is twice."""
    if len({key for key, _ in pairs}) < len(pairs):
        raise ValueError(f"a key is there twice: {pairs}")
    return dict(pairs)


# ---- what stands above a line


class Above:
    """What the lines so far leave to those below them: what a record has that its line hasn't."""

    def __init__(self, records):
        self.told, self.rank, self.step = {}, None, 0
        self.named = {record["bridge_id"].split(".")[1]: record["bridge"] for record in records if "bridge_id" in record}

    def holder(self, identifier):
        return self.named.get(identifier.split(".")[1])

    def wanted(self, kind, values):
        """What a record of this kind has besides its line."""
        if kind.enum == "TreeLine" and kind.name != "Heading":
            names = {"root": "root_id", "regional": "regional_id", "designated_bridge": "designated_id"}
            return {"tree": self.told["tree"], **{name: self.holder(values[its]) for name, its in names.items() if its in values}}
        if kind.enum == "VlanLine" and kind.name != "Heading":
            return {"vids": self.told["vids"]}
        if kind.enum == "RegionLine":
            return {"region": values["bridges"][0]} if kind.first == "region" else {"bridge": self.told["bridge"]} if kind.first == "msti" else {}
        if kind.enum == "ContestLine" or kind.enum == "ExplainLine" and kind.first != "explain":
            return {key: self.told[key] for key in ("tree", "bridge", "port")}
        if kind.enum == "SweepLine" and kind.name in ("Lan", "Bridge", "Risk"):
            return {"failure": {kind.first: values[kind.first]}}
        if kind.enum == "PathLine":
            # each says what was asked, as the first line does
            return {**{key: self.told[key] for key in ("vid", "from", "to")}, "failure": {kind.first: values.get(kind.first)}}
        if kind.enum == "SweepLine" and kind.first == "cut":
            return {key: self.told[key] for key in ("failure", "other_failure") if key in self.told}
        if kind.enum == "StepLine" or kind.enum == "RefusalLine":
            # what is refused of a step stands in front of its line
            return {"step": self.step + (kind.name == "StepChange")}
        if kind.enum in ("VerifyLine", "StepVerifyLine"):
            return {"expectation": "fits", "tree": 0, "step": self.step, "promises": values.get("promises")}
        # tree 0 alone has ages and a part of the message without a number; a port that is a member of no VLAN has no VIDs, and one of all has all
        of_tree_0 = {"tree": 0, "tree_kind": "cist"} if kind.enum == "CaptureLine" else {"tree": 0}
        return {"NoVlans": {"vids": []}, "AllVlans": {"vids": [[1, 4094]]}}.get(kind.name, of_tree_0)

    def is_kept(self, kind, values):
        """Whether the record has what stands above its line; what it says itself is kept for the next ones."""
        above = [its[0] for place, *its in kind.parts if place in ("Above", "Told")] + ["bridge", "port"] * (("AbovePort",) in kind.parts)
        wanted = self.wanted(kind, values) if above else {}
        if any(values[key] != wanted[key] for key in above):
            raise ValueError(f"{values}, and above it stands {wanted}")
        if kind.first == "step":
            self.step = values["step"]
        if kind.first in ("tree", "vlan", "mstconfid", "explain", "path", "lan", "bridge", "risk", "pair", "step") and kind.enum != "BridgeCommand":
            self.told = {**self.told, **values} if kind.enum == "TreeLine" else dict(values)
        return True


def lines_of(records):
    """The lines that these records stand for."""
    above = Above(records)
    for record in records:
        first, *_ = record.items()
        values = dict(itertools.islice(record.items(), 1, None))
        if first[0] != "kind":
            raise ValueError(f"no kind: {record}")
        kind = kind_of(first[1], values)
        MET.add(kind[:2])
        has_types(values)
        above.is_kept(kind, values)
        yield line_of(kind, values)


MET, PRINTED = set(), set()


# ---- a run without --json, and one with it


def text_of(value):
    """The lines that an object stands for, each told by it alone."""
    if "records" in value:
        yield from lines_of(value["records"])
    elif "kind" in value:
        yield from lines_of([value])
    else:
        words = [value["query"]] if "query" in value else [*([value["side"]] if "side" in value else []), "line", str(value["line"])]
        has_types({key: it for key, it in value.items() if key != "query"})
        yield " ".join([*words, value["error"], value["text"]])


def query_line(value):
    """The query of an answer, with its words."""
    values = {key: it for key, it in value.items() if key not in ("line", "query", "records")}
    has_types(values)
    kind = kind_of(value["query"], values, True)
    MET.add(kind[:2])
    return line_of(kind, values)


def order_of(value):
    """Whether the members of an object stand in their order."""
    keys = list(value)
    if "records" in value:
        return keys[-1] == "records" and keys["line" in value] == "query" and keys[: "line" in value] in ([], ["line"])
    return "kind" in value or keys in (["line", "error", "text"], ["side", "line", "error", "text"], ["query", "error", "text"])


def number_word(word):
    return str(int(word)) if word.isdecimal() else word


def is_asked(value, words, script):
    """Whether an answer says what asked for it: a line of the script, or the program's words."""
    if "line" in value:
        asked = script.split("\n")[value["line"] - 1].split()
    else:
        asked = [word for part in words for word in part.split("/")]
    return query_line(value).split() == [number_word(word) for word in asked]


def are_asked(values, words, script):
    """Whether each answer says what asked for it. A standing planner is asked by lines, and ends the answer of each by a record."""
    asked = [words]
    if words[0] == "ask":
        asked = [["its script"], *(line.split() for line in script.split("\n") if line.strip())]
    ends = list(itertools.accumulate((value.get("kind") == "done" for value in values), initial=0))
    answers = [(value, asked[end % len(asked)]) for value, end in zip(values, ends) if "records" in value]
    return all(is_asked(value, words, script) for value, words in answers)


def is_each_asked(values, script):
    """Whether each query of a script is answered or refused, once."""
    asked = [number for number, line in enumerate(script.split("\n"), 1) if ASKED.match(line)]
    told = [value["line"] for value in values if "line" in value and "kind" not in value]
    return [number for number in told if number in asked] == asked


def run(program, words, script):
    ran = subprocess.run([program, *words], input=script.encode(), stdout=subprocess.PIPE, stderr=subprocess.PIPE, timeout=600, check=False)
    return ran.returncode, ran.stdout.decode("latin-1"), ran.stderr


def values_of(printed):
    """The objects that are printed, one a line, each as short as JSON can be written."""
    values = []
    for line in printed.splitlines():
        values.append(json.loads(line, object_pairs_hook=once))
        if json.dumps(values[-1], separators=(",", ":")) != line:
            raise ValueError(f"it isn't as short as it can be: {line[:200]}")
    return values


def difference(program, command, words, script):
    """What is wrong with what a command prints of these words and this standard input with --json, or nothing."""
    text, made = run(program, [command, *words], script), run(program, [command, "--json", *words], script)
    if (text[0], text[2]) != (made[0], made[2]):
        return f"status {text[0]} and {made[0]}, {text[2]!r} and {made[2]!r}"
    try:
        values = values_of(made[1])
        PRINTED.update(made[1].splitlines())
        again = [line for value in values for line in text_of(value)]
        if again != text[1].splitlines():
            pairs = itertools.zip_longest(text[1].splitlines(), again)
            return next(f"{one!r} is told, and {other!r} by its record" for one, other in pairs if one != other)
        if not all(map(order_of, values)):
            return "members in another order"
        asked = [command] if command in BARE else [command, *words[1:]]
        if not are_asked(values, BY_POLICY.get(tuple(asked), asked), script):
            return "an answer to what isn't asked"
        if command in ("run", "check") and not is_each_asked(values, script):
            return "a query that is answered twice, or never"
    except (ValueError, KeyError, IndexError, TypeError, AttributeError) as fault:
        return f"{type(fault).__name__}: {fault}"
    return None


# ---- what was printed, by the schema

# Against the whole it takes some hundredths of a second for each record: so one line is of each kind, where there is a short one.
MOST_WHOLE = 1000


def definition_of(value):
    """The name of the schema's definition of an object, a record or a line."""
    first, *_ = value
    if "records" in value:
        kind = kind_of(value["query"], {key: it for key, it in value.items() if key not in ("line", "query", "records")}, True)
    elif value.get("kind") == "version":
        return "Version"
    elif first == "kind":
        kind = kind_of(value["kind"], dict(itertools.islice(value.items(), 1, None)))
    else:
        return {"line": "RefusalLineLine", "side": f"RefusalLine{value.get('side', '').title()}Line"}.get(first) or f"RefusalLine{value['query'].title()}"
    return kind.enum + kind.name


class Schema:
    """docs/mstplan.schema.json, with a validator for each of its definitions."""

    def __init__(self, draft):
        self.text = json.loads(read("docs", "mstplan.schema.json"))
        draft.check_schema(self.text)
        self.whole = draft(self.text)
        self.each = {name: draft({**its, "$defs": self.named(its)}) for name, its in self.text["$defs"].items()}
        self.met = {}
        self.nulls = set()

    def named(self, its):
        """What a definition names but for records, each of which is looked at alone: a validator goes over all that stands beside it."""
        return {name: self.text["$defs"][name] for name in re.findall(r'"#/\$defs/(\w+)"', json.dumps(its)) if name != "Record"}

    def faults_of(self, name, value):
        """What is wrong with an object by the definition of its kind."""
        for key, it in value.items():
            if it is None:
                self.nulls.add((key, name))
        self.met.setdefault(name, value)
        return [f"{name}: {fault.message[:200]}" for fault in self.each[name].iter_errors(value)]

    def may_be_null(self):
        """Each key that may be null, with its definition."""
        for name, its in self.text["$defs"].items():
            yield from ((key, name) for key, it in its.get("properties", {}).items() if NULL in [it, *it.get("anyOf", [])] or it.get("type") == "null")

    def accepted(self):
        """The wrong objects that the schema lets pass."""
        nulls = set(self.may_be_null())
        for name, value in self.met.items():
            wrong = [{key: it for key, it in value.items() if key != left} for left in value if left in self.text["$defs"][name]["required"]]
            wrong += [{**value, "another": 1}, *({**value, key: None} for key in value if (key, name) not in nulls)]
            yield from (f"{name} takes {it}" for it in wrong if self.each[name].is_valid(it))


NULL = {"type": "null"}


def parts_of_line(value):
    """A line without its records, and these."""
    if "records" not in value:
        return [value]
    return [{**value, "records": []}, *value["records"]]


def schema_faults():
    """What is wrong by the schema, or nothing where the machine can't read it."""
    try:
        draft = importlib.import_module("jsonschema").Draft202012Validator
    except (ImportError, AttributeError):
        print("skipped, for python3-jsonschema isn't there (4.0 or later): the schema")
        return
    schema = Schema(draft)
    lines = sorted(PRINTED, key=lambda it: (len(it), it))
    parts = {json.dumps(part): (part, line) for line in lines for part in parts_of_line(json.loads(line))}
    whole = set()
    for part, line in parts.values():
        name = definition_of(part)
        if name not in schema.met and len(line) < MOST_WHOLE:
            whole.add(line)
        yield from schema.faults_of(name, part)
    yield from (f"the whole doesn't take {line[:200]}" for line in sorted(whole) if not schema.whole.is_valid(json.loads(line)))
    yield from schema.accepted()
    yield from (f"{name}: {key} is never null" for key, name in set(schema.may_be_null()) - schema.nulls - RARE_NULLS)
    print(f"by the schema: {len(parts)} objects and records, and {len(whole)} whole lines")


# ---- scripts, and what is asked of them


def worked_scripts():
    """The scripts of the worked texts (checks/texts.py)."""
    for path in sorted(glob.glob(os.path.join(TOP, "checks", "texts", "*.txt"))):
        for name, script in re.findall(r"^== file (\S+\.script)\n((?:(?!== ).*\n)*)", read(path), re.MULTILINE):
            if "addbridge " in script:
                yield f"{name} of {os.path.basename(path)}", script


def chain(length, kind, cost):
    """A line of bridges in which a message grows old, and dear."""
    lines = []
    for number in range(1, length + 1):
        lines += [f"addbridge B{number} 02:00:00:00:01:{number:02x}", f"setmstconfid B{number} 1 chain", f"setvid2mstid B{number} 5 5"]
        lines += [f"kind B{number} {kind}", f"addport B{number} 1", f"addport B{number} 2", f"addlan L{number}"]
        lines += [f"setportpathcost B{number} {port} {cost}" for port in (1, 2)]
        lines += [f"settreeportcost B{number} {port} {tree} {cost}" for port in (1, 2) for tree in (0, 5)]
        lines += [f"plug B{number} 2 L{number}", *([f"plug B{number} 1 L{number - 1}"] if number > 1 else [])]
    return "\n".join([*lines, "setportrestrrole B2 1 yes", ""])


# A network with each setting that `save` tells, and names that read like words of the texts.
SET = """addlan Y
addlan X
lan X down
speed X 10
addbridge B 0A-00-00-00-00-02
addbridge A 02:00:00:00:00:01
kind A rstp
bridge A off
setsyspri A 7
setmstconfid A 9 area
setmstconfid B 9 "\\
setmaxhops A 6
setmaxage A 40
settreeprio A 4094 0
setvid2mstid A 5 1,3-7
setvid2mstid A 2 4
addport A 10
addport A 2
setkey A 2 8
setportpathcost A 2 200
settreeportcost A 2 1 7
settreeportprio A 2 9 15
setportvlans A 2 none
setportvlans A 10 5
setportrestrrole A 10 yes
plug A 2 Y
plug A 10 X
"""
# Bridges, LANs and a configuration whose names are words of the texts: a is the root, and q is the last of a triangle's LANs.
NAMED = """addbridge a 02:00:00:00:00:01
addbridge lans 02:00:00:00:00:02
addbridge root 02:00:00:00:00:03
addbridge off 02:00:00:00:00:04
addbridge 0 02:00:00:00:00:05
setmstconfid a 1 -
setmstconfid lans 1 -
setvid2mstid a 7 10
setvid2mstid lans 7 10
addlan q
addlan ext
addlan root
addlan own
addport a 1
addport a 2
addport lans 1
addport lans 2
addport root 1
addport root 2
addport off 1
addport 0 1
plug a 1 q
plug lans 1 q
plug a 2 ext
plug root 1 ext
plug lans 2 root
plug root 2 root
plug off 1 own
plug 0 1 own
bridge 0 off
"""


# Two links, of which the second has a VLAN alone: whoever moves there is cut off from all others.
ONE_VLAN = """addbridge A 02:00:00:00:00:01
addbridge B 02:00:00:00:00:02
addlan X
addlan Y
addport A 1
addport A 2
addport B 1
addport B 2
plug A 1 X
plug A 2 Y
plug B 1 X
plug B 2 Y
setportvlans B 2 10
"""


def scripts():
    """All scripts, by name."""
    for path in sorted(glob.glob(os.path.join(SAMPLES, "*.script")) + glob.glob(os.path.join(SAMPLES, "small", "*.script"))):
        yield os.path.relpath(path, SAMPLES), read(path)
    yield from worked_scripts()
    yield from ((f"the drawn script {number}", drawn_scripts.drawn_script(number).decode()) for number in range(DRAWN))
    yield "a chain of a region", chain(26, "mstp", 200000000)
    yield "a chain of regions", chain(26, "rstp", 200000000)
    yield "each setting", SET
    yield "names that are words", NAMED
    yield "a link of one VLAN", ONE_VLAN
    yield "nothing", ""


def queries_of(script):
    """Each query, of the trees, VIDs and bridges that the script names, and of some that it doesn't."""
    bridges = dict.fromkeys(re.findall(r"^addbridge (\S+)", script, re.MULTILINE))
    trees = dict.fromkeys(["0", "00", *re.findall(r"^setvid2mstid \S+ (\d+)", script, re.MULTILINE), "4094", "4095"])
    lines = [f"showtree {tree}" for tree in trees] + [f"showvlan {vid}" for vid in ("1", "10", "30", "4094", "0")]
    return [*lines, *(f"showmstconfid {bridge}" for bridge in [*bridges, "nobody"]), *QUERIES]


def with_queries(script):
    """A script, and each query behind it, before and behind a mark, and where something has changed since."""
    first = next(iter(re.findall(r"^addbridge (\S+)", script, re.MULTILINE)), "nobody")
    last = next(iter(re.findall(r"^addlan (\S+)", script, re.MULTILINE)), "nothing")
    edits = [f"bridge {first} off", f"lan {last} down", f"setportvlans {first} 1 none", f"kind {first} rstp", f"delbridge {first}"]
    lines = [*queries_of(script), "mark", *itertools.chain.from_iterable((edit, "changes") for edit in edits), "showplan", "no such line"]
    return script + ("" if script.endswith("\n") or not script else "\n") + "\n".join(lines) + "\n"


def standing(script):
    """What a standing planner is asked of a script: words of the program and queries, before and behind edits, and these taken back."""
    ports = [f"explain {' '.join(words[1:])}" for words in explained(script)]
    asked = [*ports[:3], ports[-1], "summary", "sweep", "sweep 2/3", "dot 4095", "dot vlan 4095", "explain"]
    bridge = next(iter(re.findall(r"^addbridge (\S+)", script, re.MULTILINE)), "nobody")
    edits = ["mark", f"bridge {bridge} off", "addlan a-LAN-more", f"kind {bridge} rstp", f"delbridge {bridge}", "undo", "undo 2", "undo 9"]
    return "\n".join([*queries_of(script), *asked, *edits, "changes", *asked, "save", "no such line", ""])


def quiet(script):
    """Its edits."""
    return "".join(line + "\n" for line in script.split("\n") if not ASKED.match(line) and line.split() != ["mark"])


def explained(script):
    """Some ports of a script, with a tree and without one."""
    plugged = list(dict.fromkeys(re.findall(r"^plug (\S+) (\d+) ", script, re.MULTILINE)))
    step = 1 if len(plugged) <= ALL_EXPLAINED else len(plugged) // MOST_EXPLAINED
    yield from (["-", *port] for port in plugged[::step][:ALL_EXPLAINED])
    yield from (["-", *port, tree] for port in plugged[:1] for tree in ("00", "1", "4094"))
    yield ["-", "nobody", "1"]


def wanted(script):
    """Some bridges as roots of a script's trees, and some ports that are to forward there."""
    bridges = list(dict.fromkeys(re.findall(r"^addbridge (\S+)", script, re.MULTILINE)))
    plugged = list(dict.fromkeys(re.findall(r"^plug (\S+) (\d+) ", script, re.MULTILINE)))
    trees = list(dict.fromkeys(["00", *re.findall(r"^setvid2mstid \S+ (\d+)", script, re.MULTILINE)]))[:3]
    yield from (["-", "root", tree, bridge] for tree in trees for bridge in [*bridges[-2:], "nobody"])
    yield from (["-", "forward", tree, *port] for tree in trees for port in plugged[-4:])


def traced(script):
    """Paths between some bridges of a script, with `always` and without it."""
    bridges = list(dict.fromkeys(re.findall(r"^addbridge (\S+)", script, re.MULTILINE)))
    ends = [*zip(bridges, bridges[1:]), *zip(bridges[:2], bridges[-2:]), ("nobody", "nobody")]
    yield from (["-", vid, *pair] for vid in ("1", "10") for pair in ends)
    yield from (["-", "1", *pair, "always"] for pair in ends[:3])


def cases(folder):
    """Each case: its name, the command, its words, and standard input."""
    named = list(scripts())
    for name, script in named:
        edits = quiet(script)
        yield name, "run", ["-"], with_queries(script)
        yield name, "summary", ["-"], edits
        yield from ((name, "explain", words, edits) for words in explained(edits))
        yield from ((name, "advise", words, edits) for words in wanted(edits))
        yield from ((name, "path", words, edits) for words in traced(edits))
        yield from ((name, "sweep", ["-", *words], edits) for words in ([], ["2/3"]))
        if edits.count("addbridge ") < MOST_IN_PAIRS:
            yield from ((name, "sweep", ["-", "pairs", *words], edits) for words in ([], ["1/4"]))
    for number, (name, script) in enumerate(named):
        yield name, "ask", [written(folder, f"ask{number}", quiet(script))], standing(quiet(script))
        path = written(folder, f"promised{number}", quiet(script))
        yield name, "sweep", [path, "-"], RISKS + PROMISES
        yield name, "verify", [path, "-"], RISKS + PROMISES
        yield name, "steps", [path, "-"], CHANGE
        yield name, "steps", [path, written(folder, "change", CHANGE), "-"], PROMISES
    for number, ((name, script), (other, new)) in enumerate(itertools.pairwise(named)):
        path = written(folder, f"old{number}", quiet(script))
        yield f"{name} and {other}", "diff", [path, "-"], quiet(new)
        yield f"{name} and {other}", "edits", [path, "-"], quiet(new)
    plain = "".join(f"{line}\n" for line in SET.splitlines() if line.startswith(("add", "plug")))
    for name, old, new in (("settings that go", SET, plain), ("settings that come", plain, SET)):
        yield name, "edits", [written(folder, name, old), "-"], new
    yield from capture_cases(folder)


def written(folder, name, text):
    path = os.path.join(folder, name)
    with open(path, "w", encoding="utf-8") as file:
        file.write(text)
    return path


# ---- captures

# A region of two bridges, where VID 10 is in tree 1, and B has the LAN Y for itself; and what B's port there sends.
REGION = """addbridge A 02:00:00:00:00:01
addbridge B 02:00:00:00:00:02
setmstconfid A 1 area
setmstconfid B 1 area
addlan X
addport A 1
addport B 1
plug A 1 X
plug B 1 X
addlan Y
addport B 2
plug B 2 Y
setvid2mstid A 1 10
setvid2mstid B 1 10
showtree 1
no such line
"""
DIGEST = "870555c957f1b44530b7d56fd4716adf"
MESSAGE = "7c 8001020000000001 00004e20 80 80 13"


def sent(messages, cost="00004e20", name="area", digest=DIGEST):
    length = 64 + 16 * len(messages)
    front = f"0000 03 02 7c 8000020000000001 00000000 8000020000000001 8002 0000 1400 0200 0f00 00 {length:04x} 00"
    return " ".join([front, name.encode().hex().ljust(64, "0"), "0001", digest, cost, "8000020000000002 13", *messages])


CAPTURES = "\n".join([
    "# each kind of line, and two that are skipped",
    sent([MESSAGE]),
    sent([MESSAGE], cost="00004e21"),
    sent([MESSAGE], name="-"),
    sent([MESSAGE], name=""),
    sent([MESSAGE], digest="00" * 16),
    sent([MESSAGE.replace("80 80", "80 70")]),
    sent([MESSAGE.replace("8001020000000001", "8001020000000002")]),
    sent([MESSAGE, MESSAGE.replace("8001", "8002")]),
    sent([MESSAGE, MESSAGE]),
    sent([MESSAGE, MESSAGE.replace("8001", "8fff")]),
    sent([]),
    sent([MESSAGE]).replace("8002 0000", "8009 0000"),
    "",
    "00",
    "no digits",
]) + "\n"


def capture_cases(folder):
    captures = written(folder, "captures", CAPTURES)
    yield "captures of each kind", "check", ["-", captures], REGION
    yield "captures of another network", "check", ["-", captures], NAMED
    yield "no captures", "check", ["-", written(folder, "no captures", "# Nothing yet.\n")], NAMED
    for name in ("triangle", "region"):
        yield f"{name}.captures", "check", ["-", os.path.join(SAMPLES, f"{name}.captures")], read("examples", f"{name}.script")


# ---- wrong answers that there were once


def records_of(program, words, script):
    """The records of the only answer."""
    values = [value for value in values_of(run(program, [words[0], "--json", *words[1:]], script)[1]) if "records" in value]
    return values[-1]["records"]


def wrong_answers(program):
    """Of names that are words of the texts, what an answer is and what it has to be."""

    def asked(query):
        return records_of(program, ["run", "-"], NAMED + query)

    islands = [[record["bridges"], record["lans"]] for record in asked("showvlan 1") if record["kind"] == "island"]
    yield "an island with a bridge that is called lans", [["a", "lans", "root"], ["ext", "q", "root"]] in islands, True
    yield "the name of a configuration that is called -", asked("showmstconfid a")[0]["name"], "-"
    named = [[record["region"], record["name"], record["bridges"]] for record in asked("showregions") if record["region"] == "a"]
    yield "a region of that configuration", named, [["a", "-", ["a", "lans"]]]
    tree = asked("showtree 0")
    yield "costs are numbers", {type(record[key]) for record in tree for key in ("ext", "int") if key in record}, {int}
    yield "a bridge that is off, and one that is called so", [record["bridge"] for record in tree if record.get("power") == "off"], ["0"]
    roots = {record["bridge"]: [record["root_id"], record["root"]] for record in tree if "root_id" in record}
    yield "the root of a bridge that is called root", roots["root"], ["8000.02:00:00:00:00:01", "a"]
    yield "a bridge that is its own root", roots["off"], ["8000.02:00:00:00:00:04", "off"]
    ports = [[record["port"], record["lan"], record["tree"]] for record in tree if record["kind"] == "port" and record["bridge"] == "root"]
    yield "its ports, at a LAN that is called ext", ports, [[1, "ext", 0], [2, "root", 0]]
    first, second = [record for record in records_of(program, ["explain", "-", "root", "1"], NAMED) if "winner" in record]
    port, other = {"bridge": "root", "port": 1}, {"bridge": "a", "port": 2}
    yield "what is designated there", [first["kind"], first["winner"], first["loser"]], ["designated", other, port]
    yield "what is the root port there", [second["kind"], second["winner"], second["bridge"], second["port"]], ["root", port, "root", 1]
    saved = [record for record in asked("save") if record["kind"] in ("mstplan", "setmstconfid") and record.get("bridge") in (None, "a")]
    yield "settings", saved, [{"kind": "mstplan", "version": 2}, {"kind": "setmstconfid", "bridge": "a", "revision": 1, "name": "-"}]


# ---- what users ask for, with no state

BLOCKED = '.records[]? | select(.kind == "port" and (.role == "Alternate" or .role == "Backup")) | [.tree, .bridge, .port]'
CUT = f'.records[]? | select(.kind == "cut" and any(.vids[]; .[0] <= {VID} and {VID} <= .[1])) | .failure'
PARTS = '.records[]? | select(.kind == "cut") | [.failure, .parts]'


def blocked_of(records):
    return [[record["tree"], record["bridge"], record["port"]] for record in records if record["kind"] == "port" and record["role"] in ("Alternate", "Backup")]


def cut_of(records):
    return [record["failure"] for record in records if record["kind"] == "cut" and any(first <= VID <= last for first, last in record["vids"])]


def parts_of(records):
    return [[record["failure"], record["parts"]] for record in records if record["kind"] == "cut"]


def blocked_lines(lines):
    """The same of a text, which takes a state."""
    tree, told = None, []
    for words in map(str.split, lines):
        tree = int(words[1]) if words[0] == "tree" else tree
        if words[0] == "port" and words[-1] in ("Alternate", "Backup"):
            told.append([tree, words[1], int(words[2])])
    return told


def failure_lines(lines):
    """The failures of a text, each with what it cuts."""
    failure, told = None, []
    for words in map(str.split, lines):
        if words[0] in ("lan", "bridge"):
            failure = {words[0]: words[1]}
        elif words[0] == "cut":
            vids = [[int(end) for end in run.split("-")] for run in words[1].split(",")]
            told.append([failure, [part.split(",") for part in words[3:]], any(run[0] <= VID <= run[-1] for run in vids)])
    return told


def jq(expression, printed):
    """What jq gives of what is printed, or nothing where the machine has no jq, or one that can't read the expression."""
    program = shutil.which("jq")
    try:
        ran = program and subprocess.run([program, "-c", expression], input=printed, capture_output=True, encoding="utf-8", timeout=60, check=False)
    except (OSError, subprocess.SubprocessError):
        return None
    return [json.loads(line) for line in ran.stdout.splitlines()] if ran and ran.returncode == 0 else None


def frame_of(records):
    """A data frame of ports, as rows, or nothing where the machine has no pandas."""
    try:
        pandas = importlib.import_module("pandas")
        ports = pandas.DataFrame(records).query('kind == "port"')
        return [list(row) for row in ports[["tree", "bridge", "port", "role", "ext"]].dropna().itertuples(index=False)]
    except Exception as fault:  # of whatever kind: it is the machine's
        if not isinstance(fault, ImportError):
            print(f"pandas isn't tried: {fault}")
        return None


def user_answers(program):
    """What users ask for of the campus after a change: what it is, and what it has to be by the texts."""
    script = quiet(read("examples", "campus-changed.script"))
    printed = {words: run(program, words.split(), given) for words, given in
               (("run - --json", script + "showplan\n"), ("run -", script + "showplan\n"), ("sweep - --json", script), ("sweep -", script))}
    plan, sweep = (values_of(printed[words][1])[-1]["records"] for words in ("run - --json", "sweep - --json"))
    blocked, cuts = blocked_lines(printed["run -"][1].splitlines()), failure_lines(printed["sweep -"][1].splitlines())
    asked = [
        ("blocked ports of all trees", blocked_of(plan), blocked, BLOCKED, "run - --json"),
        ("a VID that a failure cuts", cut_of(sweep), [failure for failure, _, is_cut in cuts if is_cut], CUT, "sweep - --json"),
        ("parts with their failure", parts_of(sweep), [[failure, parts] for failure, parts, _ in cuts], PARTS, "sweep - --json"),
    ]
    for name, told, wanted, expression, words in asked:
        yield name, told, wanted
        yield f"{name}: there are some", bool(told), True
        given = jq(expression, printed[words][1])
        yield f"{name}, by jq", wanted if given is None else given, wanted
    table = [[record["tree"], record["bridge"], record["port"], record["role"], record["ext"]] for record in plan if record["kind"] == "port" and "ext" in record]
    wanted = [[0, words[1], int(words[2]), words[-1], int(words[6])] for words in map(str.split, printed["run -"][1].splitlines())
              if words[0] == "port" and "ext" in words[5:6]]
    yield "a table of ports", table, wanted
    yield "a table of ports: there are some", len(table) > 10, True
    frame = frame_of(plan)
    yield "a table of ports, by pandas", table if frame is None else frame, table


def unmet():
    """The kinds that no script of these comes to. What is refused says no kind, and each record of `check` stands alone."""
    return {kind[:2] for kind in KINDS if kind.enum != "RefusalLine" and kind[:2] != ("Query", "Check")} - MET - RARE


def main():
    if len(sys.argv) != 2:
        sys.exit(__doc__)
    program = os.path.abspath(sys.argv[1])
    passed = []
    with tempfile.TemporaryDirectory() as folder, concurrent.futures.ThreadPoolExecutor(os.cpu_count() or 1) as pool:
        asked = list(cases(folder))
        told = pool.map(lambda case: difference(program, *case[1:]), asked)
        for (name, command, words, _), fault in zip(asked, told):
            if fault:
                print(f"FAILED {name}, {command} {' '.join(words)}: {fault}")
            passed.append(not fault)
    for name, told, wanted in itertools.chain(wrong_answers(program), user_answers(program)):
        if told != wanted:
            print(f"FAILED {name}: {told!r}, and not {wanted!r}")
        passed.append(told == wanted)
    if unmet():
        print(f"FAILED kinds of lines that no script came to: {sorted(unmet())}")
    passed.append(not unmet())
    PRINTED.update(run(program, ["--version", "--json"], "")[1].splitlines())
    faults = list(schema_faults())
    for fault in faults[:MOST_TOLD]:
        print(f"FAILED by the schema: {fault}")
    passed.append(not faults)
    print(f"{sum(passed)} passed, {len(passed) - sum(passed)} failed")
    sys.exit(0 if all(passed) else 1)


if __name__ == "__main__":
    main()
