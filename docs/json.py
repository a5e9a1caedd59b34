#!/usr/bin/env python3
"""Compares what is told of JSON with the table of the kinds of lines (crates/mst_kinds), of which it is made: the tables of
docs/JSON.md, and docs/mstplan.schema.json, a JSON Schema (draft 2020-12) of each line that the program prints with --json.

usage: json.py --check     (the status is 1 where one of them differs, with a line for each difference)
       json.py --update    (writes both)

What a key's type is in a schema, and which keys of which kinds may be null, stands here; checks/json_lines.py compares it with what
the program prints.
"""

import collections
import fnmatch
import os
import re
import sys

HERE = os.path.dirname(os.path.abspath(__file__))
# this file has the name of Python's own module, which it wants
sys.path = [it for it in sys.path if os.path.abspath(it) != HERE]

import json  # noqa: E402

TOP = os.path.join(HERE, os.pardir, "crates", "mst_kinds")
PAGE, SCHEMA = os.path.join(HERE, "JSON.md"), os.path.join(HERE, "mstplan.schema.json")
TYPES = {
    "words": "string",
    "numbers": "number",
    "a_port": "port",
    "giver": "port or null",
    "vids": "VIDs",
    "names": "array of strings",
    "ports": "array of ports",
    "trees": "array of numbers",
    "groups": "array of arrays of strings",
    "active_ports": "array of active ports",
    "objects": "object",
    "failures": "failure",
    "lines": "two numbers",
    "promises": "array of promises",
    "flags": "true or false",
}
# The keys that may be null, by their kinds. Where a line ends with ` -`, the last one is.
NULLS = {
    "TreeLine::*": ("root", "regional", "designated_bridge"),
    "ChangeLine::*": ("old_vector", "new_vector", "old_role", "new_role"),
    "ContestLine::Root*": ("winner", "loser"),
    "CaptureLine::Text": ("capture_text",),
    "*VerifyLine::*": ("failure", "next"),
    "*VerifyLine::Role": ("role",),
}
# The kinds of lines behind a step, which are those of a policy but for two that stand behind no step.
BEHIND, NOT_BEHIND = "StepVerify", ("Same", "Counts")
TABLE = re.compile(r"(<!-- table of (\w+) -->\n).*?(?=<!-- end of table -->)", re.DOTALL)
# A kind: its enumeration and its variant, its line as its comment has it, its first word, and its parts.
Kind = collections.namedtuple("Kind", "enum name line first parts")


def read(*path):
    with open(os.path.join(TOP, *path), encoding="utf-8") as file:
        return file.read()


# ---- the table of the code


def variants(text, enum):
    """The variants of an enumeration, each with its comment."""
    body = re.search(rf"pub enum {enum} {{\n(.*?)\n}}", text, re.DOTALL).group(1)
    return re.findall(r"    /// (.*)\n    (\w+)", body)


def texts(text, enum):
    return dict(re.findall(rf'{enum}::(\w+) => b"(.*?)"', text))


def fixed(first, parts, marks):
    """The fixed words of a line, in their order."""
    return [marks[first]] + [marks[part.split()[-1]] for part in parts if part.startswith(("Mark", "Said"))]


def groups():
    """What each group of kinds is of, with its kinds."""
    marks = texts(read("src", "mark.rt"), "Mark")
    for told, _ in variants(read("src", "kind.rt"), "Kind"):
        group, enum = re.search(rf"/// {re.escape(told)}\n    (\w+)\((\w+)\)", read("src", "kind.rt")).groups()
        text, its = read("src", re.sub(r"(?<!^)(?=[A-Z])", "_", enum).lower() + ".rt"), []
        # where the parts of a line behind a step stand, the step comes first, and its parts alone are those behind it
        front, prefix = ("parts_behind_step" in text) * (group != BEHIND), BEHIND.removesuffix("Verify") * (group == BEHIND)
        for line, name in variants(text, enum):
            if group == BEHIND and name in NOT_BEHIND:
                continue
            parts = re.search(rf"{enum}::{name} =>\s+parts!\[(.*?)\]", text).group(1).split(", ")
            first, words = re.search(rf"{enum}::{name} => Mark::(\w+)", text).group(1), iter(line.split("`")[1].split())
            if not all(word in words for word in fixed(first, parts, marks)):
                sys.exit(f"{enum}::{name}: {line} hasn't the words of its parts")
            its.append(Kind(prefix + enum, name, line, marks[first], [part for part in parts[front:] if part and not part.startswith("Mark")]))
        yield told, its


def members(kind):
    """The members of a record of a kind: (key, its fixed word or None, whether it stands above the line, `may` or `is` null or '')."""
    names, marks = texts(read("src", "key.rt"), "Key"), texts(read("src", "mark.rt"), "Mark")
    may = {key for pattern, keys in NULLS.items() if fnmatch.fnmatchcase(f"{kind.enum}::{kind.name}", pattern) for key in keys}
    found = []
    for place, *words in map(str.split, kind.parts):
        above = place in ("Above", "AbovePort", "Told")
        word = marks[words[1]] if place in ("Said", "Told") else None
        found += [(names[it] if words else it, word, above) for it in words[:1] or ("bridge", "port")]
    is_null = kind.line.split("`")[1].endswith(" -")
    return [(*it, "is" if is_null and it is found[-1] else "may" if it[0] in may else "") for it in found]


def keys():
    """Each key, by its name: its type and its meaning."""
    names = texts(read("src", "key.rt"), "Key")
    sorts = dict(re.findall(r"^sort_of key\.(\w+) = (\w+)$", read("specs", "Sorts.antt"), re.MULTILINE))
    for meaning, key in sorted(variants(read("src", "key.rt"), "Key"), key=lambda it: names[it[1]]):
        yield names[key], TYPES[sorts.get(key, "words")], meaning[0].lower() + meaning[1:].rstrip(".")


# ---- the tables of the page


def cell(key, word, above, null):
    """What the page says of a member."""
    said = f' "{word}"' if word else " null" if null == "is" else ""
    return f"`{key}{'^' * above}{'?' * (null == 'may')}`{said}"


def table_of_kinds():
    for told, kinds in groups():
        yield f"\n**{told}**\n\n| Line | Keys |\n|---|---|"
        for kind in kinds:
            yield f"| {kind.line} | {' '.join(cell(*it) for it in members(kind))} |"


def table_of_keys():
    yield "| Key | Type | Meaning |\n|---|---|---|"
    yield from (f"| `{key}` | {its} | {meaning} |" for key, its, meaning in keys())


def with_tables(page):
    made = {"kinds": "\n".join(table_of_kinds()), "keys": "\n".join(table_of_keys())}
    return TABLE.sub(lambda it: it.group(1) + made[it.group(2)].strip() + "\n", page)


# ---- the schema


def ref(name):
    return {"$ref": f"#/$defs/{name}"}


def any_of(*its):
    return {"anyOf": list(its)}


def array(of):
    return {"type": "array", "items": of}


def number(least=0, most=None):
    return {"type": "integer", "minimum": least, **({} if most is None else {"maximum": most})}


def form(pattern):
    return {"type": "string", "pattern": f"^{pattern}$"}


def closed(properties, *may_lack, **more):
    """An object with these members and no others."""
    its = {"type": "object", "properties": properties, "required": [key for key in properties if key not in may_lack]}
    return {**more, **its, "additionalProperties": False}


TEXT, NULL = {"type": "string"}, {"type": "null"}
OCTET = "[0-9a-f]{2}"
BRIDGE_ID, PORT_ID = form(f"[0-9a-f]{{4}}\\.{OCTET}(:{OCTET}){{5}}"), form("[0-9a-f]{4}")
VID, TREE, PORT = number(1, 4094), number(0, 4094), {"bridge": TEXT, "port": number(1, 4095)}
ROLE = {"enum": ["Root", "Designated", "Alternate", "Backup", "Master", "Disabled"]}
OF_MSTI = {"regional_id": BRIDGE_ID, "int": number(), "designated_id": BRIDGE_ID, "designated_port_id": PORT_ID, "receiver_id": PORT_ID}
# What records have, each a definition of its own.
PARTS = {
    "Vids": array({"type": "array", "prefixItems": [VID, VID], "items": False, "minItems": 2}),
    "Port": closed(PORT),
    "ActivePort": closed({**PORT, "member": {"type": "boolean"}}),
    "Promise": closed({"line": number(1), "promise": TEXT, "scope": {"enum": ["always", "after lan", "after bridge", "after risk", None]},
                       "finally": {"type": "boolean"}, "network_count": number(), "holds": {"type": ["boolean", "null"]}}),
    "Failure": any_of(closed({"lan": TEXT}), closed({"bridge": TEXT}), closed({"risk": TEXT})),
    "Vector": any_of(closed({"root_id": BRIDGE_ID, "ext": number(), **OF_MSTI}), closed(OF_MSTI)),
    "RegionSide": any_of(closed({"name": TEXT, "revision": number(0, 65535), "region": TEXT}),
                         closed({"region_kind": {"const": "rstp"}, "revision": NULL, "region": TEXT})),
}
SCHEMAS = {
    "string": TEXT, "number": number(), "port": ref("Port"), "port or null": ref("Port"), "VIDs": ref("Vids"), "array of strings": array(TEXT),
    "array of ports": array(ref("Port")), "array of numbers": array(number()), "array of arrays of strings": array(array(TEXT)),
    "array of active ports": array(ref("ActivePort")), "failure": ref("Failure"), "array of promises": array(ref("Promise")),
    "two numbers": {"type": "array", "prefixItems": [number(1), number(1)], "items": False, "minItems": 2},
}
# What is known of some keys beside their types.
FORMS = {
    "port": PORT["port"], "vid": VID, "tree": TREE, "trees": array(TREE), "revision": number(0, 65535), "status": {"enum": [0, 1, 3]},
    **OF_MSTI, "root_id": BRIDGE_ID, "bridge_id": BRIDGE_ID, "port_id": PORT_ID, "role": ROLE, "old_role": ROLE, "new_role": ROLE,
    "mac": form(f"{OCTET}(:{OCTET}){{5}}"), "digest": form("[0-9a-f]{32}"), "error": form("[A-Z][0-9]{2}"),
    "old_vector": ref("Vector"), "new_vector": ref("Vector"), "old_region": ref("RegionSide"), "new_region": ref("RegionSide"),
}
# What is known of a key of one kind alone: a message that is compared with no tree may say any number of 12 bits.
FORMS_OF = {("CaptureLine", "Unplanned", "tree"): number(0, 4095)}
# What `--version` prints, which no table has.
VERSION = closed({"kind": {"const": "version"}, "release": form("[0-9]+\\.[0-9]+\\.[0-9]+"), "json": number(1), "script": number(1)},
                 title="mstplan --version --json")
# The kinds that nothing prints as JSON: records of `check` stand alone, and so do hints.
UNPRINTED = {("Query", "Check"), ("RefusalLine", "Hinted")}
# What is refused of a script, what of a question, and the kinds whose records stand alone.
REFUSED, UNANSWERED, ALONE = ("Line", "OldLine", "NewLine"), ("Explain", "Dot", "Advise", "Path"), ("CaptureLine", "AskLine")


def values(kind, table):
    """What each member of a record of a kind is."""
    for key, word, _, null in members(kind):
        its, meaning = table[key]
        plain = {"const": word} if word else FORMS_OF.get((kind.enum, kind.name, key)) or FORMS.get(key) or SCHEMAS[its]
        yield key, {"description": meaning, **(NULL if null == "is" else any_of(plain, NULL) if null else plain)}


def definition(kind, table):
    """The object of a kind."""
    its, title = dict(values(kind, table)), {"title": kind.line.replace("`", "")}
    if kind.enum == "Query":
        line = {"description": "the number of the script's line that asks", **number(1)}
        return closed({"line": line, "query": {"const": kind.first}, **its, "records": array(ref("Record"))}, "line", **title)
    if kind.enum == "RefusalLine" and kind.name in REFUSED:
        return closed(its, **title)
    return closed({"query" if kind.enum == "RefusalLine" and kind.name in UNANSWERED else "kind": {"const": kind.first}, **its}, **title)


def release():
    """The number of the release, as the program has it."""
    with open(os.path.join(HERE, os.pardir, "crates", "mst_command", "src", "page.rt"), encoding="utf-8") as file:
        return re.search('VERSION: &str = "([0-9.]+)"', file.read())[1]


def by_word(sort, key, its):
    """A sort of objects, told apart by the word of this key alone: of each word a definition, which has its kinds, and that of the sort."""
    named, made = collections.defaultdict(list), {}
    for word, name in its:
        named[word].append(ref(name))
    for word, kinds in named.items():
        told = {"type": "object", "properties": {key: {"const": word}}, "required": [key], **any_of(*kinds)}
        made[f"{sort}Of{word[0].upper()}{word[1:]}"] = {"title": f"{key} {word}", **(told if kinds[1:] else kinds[0])}
    return {**made, sort: {"type": "object", "required": [key], "oneOf": [ref(it) for it in made]}}


def schema():
    """The schema: a definition for each kind, and one for each sort of objects, whose kinds it names."""
    table = {key: its for key, *its in keys()}
    kinds = [kind for _, its in groups() for kind in its if (kind.enum, kind.name) not in UNPRINTED]
    sorts = {"Answer": [], "RecordAlone": [("version", "Version")], "Refused": [], "Unanswered": [], "Record": []}
    made = {"Version": VERSION}
    for kind in kinds:
        name = kind.enum + kind.name
        made[name] = definition(kind, table)
        of_refusal = "Refused" if kind.name in REFUSED else "Unanswered" if kind.name in UNANSWERED else "Record"
        sort = {"Query": "Answer", "RefusalLine": of_refusal}.get(kind.enum, "RecordAlone" if kind.enum in ALONE else "Record")
        sorts[sort].append((kind.first, name))
    told = {"Refused": any_of(*(ref(name) for _, name in sorts["Refused"]))}
    for sort, key in (("Answer", "query"), ("RecordAlone", "kind"), ("Unanswered", "query"), ("Record", "kind")):
        told |= by_word(sort, key, sorts[sort])
    return {
        "$schema": "https://json-schema.org/draft/2020-12/schema",
        "$id": f"urn:mstplan:json:{release()}",
        "title": f"A line that mstplan {release()} prints with --json",
        "description": "Made by docs/json.py of the table of kinds of lines; docs/JSON.md tells what stays in later versions.",
        "oneOf": [ref(sort) for sort in sorts if sort != "Record"],
        "$defs": {**told, **PARTS, **made},
    }


# ---- both files


def contents(path):
    if not os.path.exists(path):
        return ""
    with open(path, encoding="utf-8") as file:
        return file.read()


def differences(name, old, new):
    """What differs between a file and what it is to be."""
    there, wanted = old.splitlines(), new.splitlines()
    told = [f"{name}: not so: {it}" for it in there if it not in wanted] + [f"{name}: left out: {it}" for it in wanted if it not in there]
    return told or [f"{name}: another order"] * (old != new)


def main():
    if sys.argv[1:] not in (["--check"], ["--update"]):
        sys.exit(__doc__)
    made = {PAGE: with_tables(contents(PAGE)), SCHEMA: json.dumps(schema(), indent=1) + "\n"}
    told = []
    for path, new in made.items():
        if sys.argv[1] == "--update":
            with open(path, "w", encoding="utf-8") as file:
                file.write(new)
        else:
            told += differences(os.path.basename(path), contents(path), new)
    print("\n".join(told), end="\n" * bool(told))
    sys.exit(1 if told else 0)


if __name__ == "__main__":
    main()
