"""What mstplan answers of a script's network, in the form in which the page has it. Speeds are in kb/s."""

import mstplan
from broken import broken_in
from mstplan import edit_in, is_second, lines_in, lines_of_step, list_of, port_of

QUERIES = ["showregions", "shownotes", "showlag"]
DEFAULT_SPEED = 1_000_000
ALL_VLANS = "1-4094"
# What `steps` tells of a policy: what isn't kept before the change and behind a step, and what is kept again.
TOLD_OF_POLICIES = ("start", "policy", "fails", "mends")
# How an entity fails, and how that is taken back.
FAILS = {"lan": ("down", "up"), "bridge": ("off", "on")}


class Program(mstplan.Program):
    """A program, and what the page tells of whole files by its answers."""

    def differences(self, old, new):
        """The records of `diff` for the networks of two scripts."""
        return self.records("diff", old, new)

    def promises(self, script, policy):
        """What `verify` tells of a script's network and a policy: its refused lines, why others aren't kept, and how many hold; and each
        promise, with where it is judged."""
        *records, last = self.records("verify", script, policy)
        counts = {"expectations": last["expectation_count"], "hold": last["hold_count"]}
        return {"broken": broken_in(policy, records), **counts}, last["promises"]

    def steps(self, script, change, policy):
        """The steps of a change to a script's network, in their order; what is told of the policy before them, and behind each; and how many
        move, cut and break something, and what isn't kept in the end. There may be no policy."""
        *records, last = self.records("steps", script, change, *([] if policy is None else [policy]))
        lines = lines_in(change)
        steps = [step_of(record, lines) for record in records if record["kind"] == "step"]
        judged = [[] for _ in range(len(steps) + 1)]
        for record in records:
            kind, step = record["kind"], steps[record["step"] - 1] if record["step"] else None
            if kind == "change":
                step["refused"].append(kept_of(record, "line", "error", "text"))
            elif kind == "cut":
                step["parts"].append(parts_in(record))
            elif kind == "turns":
                step["turns"].append([",".join(map(str, record["trees"])), ",".join(record["bridges"])])
            elif kind == "restarts":
                step["restarts"] = [port_of(it) for it in record["ports"]]
            elif kind in TOLD_OF_POLICIES:
                judged[record["step"]].append(record)
        return steps, judged, {word: last.get(f"{word}_count") for word in ("moving", "cutting", "failing", "unkept")}


def step_of(record, lines):
    """A step by its record, with all lines of the change that stand with its own, and their numbers."""
    first, last = record["lines"]
    while first > 1 and lines[first - 2].strip(b" \t"):
        first -= 1
    while last < len(lines) and lines[last].strip(b" \t"):
        last += 1
    typed = [[number, lines[number - 1].decode(errors="replace")] for number in range(first, last + 1)]
    vids = {word: list_of(record[f"{word}_vids"]) for word in ("moved", "cut", "joined")}
    told = {"lines": lines_of_step(record), "typed": typed, "trees": record["trees"], "changed": record["port_count"]}
    return {**told, **vids, "parts": [], "turns": [], "restarts": [], "refused": []}


def edits_in(step, script, change):
    """The edits of a step that aren't refused, as lines of the script's version. Queries and marks aren't among them."""
    newer, lines = is_second(lines_in(script)) - is_second(lines_in(change)), lines_in(change)
    passed = {it["line"] for it in step["refused"]}
    first, last = map(int, step["lines"].split("-"))
    edits = (edit_in(lines[number - 1], newer) for number in sorted(set(range(first, last + 1)) - passed))
    return [it for it in edits if it is not None]


def parts_in(record):
    """VIDs that are cut alike, and the parts that are left."""
    return [list_of(record["vids"]), [",".join(names) for names in record["parts"]]]


def kept_of(record, *keys):
    """These members of a record, as far as it has them."""
    return {key: record[key] for key in keys if key in record}


def settings_of(saved):
    """Bridges, LANs and ports by name, with what the records of `save` set of each, as far as the page tells it."""
    bridges, lans, ports = {}, {}, {}
    for record in saved:
        command, bridge, lan = record["kind"], record.get("bridge"), record.get("lan")
        if command == "addbridge":
            bridges[bridge] = {"mac": record["mac"], "kind": "mstp", "on": True, "vids": {}}
        elif command == "bridge":
            bridges[bridge]["on"] = record["power"] == "on"
        elif command == "kind":
            bridges[bridge]["kind"] = record["bridge_kind"]
        elif command == "setvid2mstid":
            # A long list stands in several lines.
            mapped, tree = bridges[bridge]["vids"], str(record["tree"])
            mapped[tree] = ",".join([*filter(None, [mapped.get(tree)]), list_of(record["vids"])])
        elif command == "addport":
            ports[port_of(record)] = {"vlans": ALL_VLANS}
        elif command == "setportvlans":
            ports[port_of(record)]["vlans"] = list_of(record["vids"])
        elif command == "setportrestrrole":
            ports[port_of(record)]["restricted"] = record["restricted"] == "yes"
        elif command == "addlan":
            lans[lan] = {"up": True, "speed": DEFAULT_SPEED}
        elif command == "lan":
            lans[lan]["up"] = record["state"] == "up"
        elif command == "speed":
            lans[lan]["speed"] = record["speed"]
    return bridges, lans, ports


def plan_of(records):
    """Trees by number, and groups of VLANs with equal islands of two bridges and more, from the records of `showplan`."""
    trees, groups = {}, []
    for record in records:
        if record["kind"] == "tree":
            trees[record["tree"]] = {"bridges": {}, "ports": {}}
        elif record["kind"] == "port":
            trees[record["tree"]]["ports"][port_of(record)] = kept_of(record, "lan", "port_id", "ext", "int", "role")
        elif record["kind"] == "bridge":
            told = kept_of(record, "bridge_id", "root_id", "root", "ext", "regional_id", "regional", "int", "power")
            trees[record["tree"]]["bridges"][record["bridge"]] = told
        elif record["kind"] == "vlan":
            groups.append({"vids": list_of(record["vids"]), "islands": []})
        elif record["kind"] == "island" and len(record["bridges"]) > 1:
            # Every other bridge is alone, which the page needn't be told: there are more of these than all else.
            groups[-1]["islands"].append(record["bridges"])
    return trees, groups


def logical_lans(ports, lans, classes):
    """The logical LANs that have a logical port, by name: their ports and members, whether they are up, and their speed."""
    members = {record["lan"]: record["lans"] for record in classes}
    logical = {}
    for port, told in ports.items():
        lan = told["lan"]
        logical.setdefault(lan, {"ports": [], "members": members.get(lan, [lan])})["ports"].append(port)
    for told in logical.values():
        up = [member for member in told["members"] if lans[member]["up"]]
        told["up"], told["speed"] = bool(up), sum(lans[member]["speed"] for member in up or told["members"])
    return logical


def failures_of(records):
    """The single failures of a sweep in its order, each with the VLANs that it cuts and the parts that it leaves."""
    failures = []
    for record in records:
        if record["kind"] == "cut":
            failures[-1]["parts"].append(parts_in(record))
        elif record["kind"] in FAILS:
            told = {"what": record["kind"], "name": record[record["kind"]], "trees": record["trees"]}
            failures.append({**told, "changed": record["port_count"], "cut": list_of(record["vids"]), "parts": []})
    return failures


def changed_by(standing, failure):
    """What a failure changes since the mark, by the records of `changes`. It is taken back."""
    entity, (fails, back) = f"{failure['what']} {failure['name']}", FAILS[failure["what"]]
    standing.make(f"{entity} {fails}")
    changed = standing.answer("changes")
    standing.make(f"{entity} {back}")
    return changed


def changes_of(records, names):
    """Ports that get another role by a failure, by tree and role, and roots and costs to them with the bridges that have them, by the records
    of `changes`.

    A bridge that the failure takes away has no root afterwards, and isn't among them. `names` are bridges by identifier.
    """
    roles, roots, costs = {}, {}, {}
    for record in records:
        if record["kind"] == "port":
            roles.setdefault((record["tree"], record["new_role"]), []).append(port_of(record))
        elif record["kind"] == "bridge" and record["old_vector"] and record["new_vector"]:
            before, after = root_in(record["old_vector"]), root_in(record["new_vector"])
            if before != after:
                roots.setdefault((record["tree"], names[before], names[after]), []).append(record["bridge"])
            before, after = cost_in(record["old_vector"]), cost_in(record["new_vector"])
            if before != after:
                costs.setdefault((record["tree"], *after), []).append(record["bridge"])
    changes = {"roles": roles, "roots": roots, "costs": costs}
    return {what: [[*told, ",".join(names)] for told, names in found.items()] for what, found in changes.items()}


def cost_in(vector):
    """The external and the internal cost of a vector; one of an MSTI has no external cost."""
    return vector.get("ext"), vector["int"]


def root_in(vector):
    """The identifier of the root that a vector of the CIST has, or of the regional root in an MSTI."""
    return vector.get("root_id", vector["regional_id"])


def reasons_for(standing, port):
    """Why a port has its role, by tree."""
    reasons = {}
    for record in standing.answer(f"explain {port.replace(':', ' ')}"):
        told = reasons.setdefault(record["tree"], [])
        if record["kind"] != "explain":
            told.append(record)
    return reasons


def networks_of(program, script, steps, sweeping):
    """All that the page tells of the network which a script leaves, and then of that after the edits of each step, one after another."""
    with program.standing(script) as standing:
        yield told_by(standing, sweeping)
        for edits in steps:
            for edit in edits:
                standing.make(edit)
            yield told_by(standing, sweeping)


def told_by(standing, sweeping):
    """All that the page tells of a standing program's network.

    A port that is alone on its LAN isn't explained: there is nothing that it is compared with.
    """
    summary = standing.answer("summary")
    bridges, lans, ports = settings_of(standing.answer("save"))
    failures = failures_of(standing.answer("sweep")) if sweeping else []
    regions, notes, classes = map(standing.answer, QUERIES)
    trees, groups = plan_of(standing.records("showplan"))
    names = {told["bridge_id"]: bridge for tree in trees.values() for bridge, told in tree["bridges"].items() if "bridge_id" in told}
    standing.make("mark")
    for failure in failures:
        failure.update(changes_of(changed_by(standing, failure), names))
    logical_ports = trees[0]["ports"]
    logical = logical_lans(logical_ports, lans, classes)
    compared = [port for port, told in logical_ports.items() if len(logical[told["lan"]]["ports"]) > 1]
    return {
        "refused": standing.refused, "summary": summary, "bridges": bridges, "lans": logical,
        "up": {lan: told["up"] for lan, told in lans.items()}, "ports": {port: ports[port] for port in logical_ports},
        "trees": trees, "groups": groups, "regions": regions, "notes": notes, "failures": failures, "swept": sweeping,
        "reasons": {port: reasons_for(standing, port) for port in compared},
    }
