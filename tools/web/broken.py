"""What `verify` tells of promises that aren't kept: as it prints it, and in sentences."""

from mstplan import list_of, port_of, reason_in

MOST_NAMES = 12


def key_of(failure):
    """A failure as the page names it; the network itself has none."""
    return None if failure is None else " ".join(next(iter(failure.items())))


def broken_in(policy, records):
    """Each promise of a policy that isn't kept, or is refused, with its own line, where that is, and why, as printed and said. Where reasons
    of the network itself aren't told again of failures, it stands behind them after how many. The line 0 is the policy as a whole."""
    promises = ["the policy", *(line.decode(errors="replace").strip() for line in policy.split(b"\n"))]
    return [{
        "line": record["line"], "promise": promises[record["line"]], "refused": record["kind"] == "policy",
        "failure": key_of(record.get("failure")), "again": record.get("failure_count"), "why": why_in(record), "said": said_of(record),
    } for record in records]


def why_in(record):
    return f"failures {record['failure_count']}" if record["kind"] == "same" else reason_in(record)


def named(names):
    """Names in a sentence, of which there may be many."""
    told = ", ".join(names[:MOST_NAMES])
    return f"{told} and {len(names) - MOST_NAMES} more" if len(names) > MOST_NAMES else told


def parted(parts):
    return " | ".join(named(names) for names in parts)


def tree_named(record):
    return f"MST {record['tree']}" if record.get("tree") else "the CIST"


def vlans(runs):
    """VIDs in a sentence, and whether they are several."""
    is_one = len(runs) == 1 and runs[0][0] == runs[0][1]
    return f"{'VLAN' if is_one else 'VLANs'} {list_of(runs)}", not is_one


def said_of(record):
    """Why a promise isn't kept, in a sentence."""
    if record["kind"] == "policy":
        return f"The {'line' if record['line'] else 'policy'} can't be judged: {record['text']} ({record['error']})."
    if record["kind"] == "same":
        return f"After {record['failure_count']} {'failure' if record['failure_count'] == 1 else 'failures'} it is as it is now, which is told once."
    return SAID[record["expectation"]](record)


def root_said(record):
    tree = tree_named(record)
    if "next" in record:
        return f"In {tree} {record['root']} is the root as promised, but {record['next'] or 'no switch'} comes next."
    if record["root"] is None:
        return f"In {tree} none of the switches has a root."
    count = record["bridge_count"]
    return f"In {tree} {record['root']} is the root of {count} {'switch' if count == 1 else 'switches'}."


def region_said(record):
    return f"The switches are in {len(record['parts'])} regions: {parted(record['parts'])}."


def role_said(record):
    ports, tree = [port_of(it) for it in record["ports"]], tree_named(record)
    one = len(ports) == 1
    if record["role"] is None:
        return f"{named(ports)} {'is' if one else 'are'} not in {tree}."
    return f"In {tree} the role of {named(ports)} is {record['role']}."


def reach_said(record):
    told, several = vlans(record["vids"])
    return f"{told} {'do' if several else 'does'} not join all of them: {parted(record['parts'])}."


def together_said(record):
    told, several = vlans(record["vids"])
    return f"{told} {'join' if several else 'joins'} no more what was joined before: {parted(record['parts'])}."


def apart_said(record):
    told, several = vlans(record["vids"])
    return f"{told} {'join' if several else 'joins'} {' | '.join(named(it) for it in record['joined'])}, which are to stay apart."


def leaves_said(record):
    told, several = vlans(record["vids"])
    return f"{told} still {'join' if several else 'joins'} {' | '.join(named(it) for it in record['joined'])}, of which some are to leave."


def leaf_said(record):
    return f"In {tree_named(record)} {record['bridge']} is the parent of {named(record['bridges'])}."


def depth_said(record):
    names, depth = record["bridges"], record["depth"]
    return f"In {tree_named(record)} {named(names)} {'has' if len(names) == 1 else 'have'} {depth} {'switch' if depth == 1 else 'switches'} above."


def hops_said(record):
    told, several = vlans(record["vids"])
    hops = record["hop_count"]
    return f"{told} {'go' if several else 'goes'} over {hops} {'link' if hops == 1 else 'links'} between {named(record['bridges'])}."


def via_said(record):
    told, several = vlans(record["vids"])
    return f"{told} {'go' if several else 'goes'} by another way: {' → '.join(record['bridges'])}."


def carries_said(record):
    told, several = vlans(record["vids"])
    return f"{told} {'do' if several else 'does'} not go over {record['lan']}."


def avoids_said(record):
    told, several = vlans(record["vids"])
    return f"{told} {'go' if several else 'goes'} over {record['lan']}."


def fits_said(record):
    if record["note"] == "cost":
        kind, cost = ("external", record["ext"]) if "ext" in record else ("internal", record["int"])
        return f"In {tree_named(record)} the {kind} cost of {record['bridge']} to its root is as large as it can be, {cost}, so it is no sum any more."
    limit, root = (f"Max Hops of {tree_named(record)}", "regional root") if record["note"] == "hops" else ("Max Age", "root")
    return f"{record['bridge']} is {record['depth']} links below its {root}, and {limit} allows {record['limit']}."


SAID = {
    "root": root_said, "region": region_said, "role": role_said, "reach": reach_said, "together": together_said,
    "apart": apart_said, "leaves": leaves_said, "leaf": leaf_said, "depth": depth_said, "hops": hops_said, "via": via_said, "carries": carries_said, "avoids": avoids_said, "fits": fits_said,
}


def front_in(policy, records):
    """What `steps` tells of a policy in front of all steps: lines that can't be read, and behind `start` how many aren't kept, and why."""
    at = next((place for place, it in enumerate(records) if it["kind"] == "start"), len(records))
    counts = [it["unkept_count"] for it in records[at:at + 1]]
    return {"unread": broken_in(policy, records[:at]), "start": counts, "news": broken_in(policy, records[at + 1:])}


def news_in(policy, records):
    """What it tells behind a step: what is new, and which lines are kept again."""
    mends = [it["line"] for it in records if it["kind"] == "mends"]
    return {"news": broken_in(policy, [it for it in records if it["kind"] != "mends"]), "mends": mends}


class Unkept:
    """What isn't kept of a policy in the networks of a change: of each line the reasons that `steps` has told since it was last kept. One
    that was told before may be over where the line has others."""

    def __init__(self, policy, promises, last):
        self.policy, self.promises, self.last, self.reasons = policy, promises, last, {}

    def behind(self, step, records):
        """What a page has of it behind a step, 0 for before the change, by what is told there."""
        for it in records:
            if it["kind"] == "mends":
                del self.reasons[it["line"]]
            elif it["kind"] != "start":
                self.reasons[it["line"]] = [*(old for old in self.reasons.get(it["line"], []) if not is_over(old, it)), it]
        told = sorted((it for its in self.reasons.values() for it in its), key=lambda it: (it["kind"] != "policy", it["line"]))
        broken = [{**its, "step": it["step"]} for its, it in zip(broken_in(self.policy, told), told)]
        refused = {it["line"] for it in broken if it["refused"]}
        judged = [it["line"] for it in self.promises if self.is_judged(it, step) and it["line"] not in refused]
        return {"step": step, "broken": broken, "expectations": len(judged), "hold": sum(it not in self.reasons for it in judged)}

    def is_judged(self, promise, step):
        """One of the end isn't before it, and one of what stays together isn't before the change."""
        return (step == self.last or not promise["finally"]) and (step > 0 or promise["network_count"] > 0)


def is_over(old, new):
    """A line that is refused has no other reason, and one that isn't has none of being refused; none stands twice."""
    return "policy" in (old["kind"], new["kind"]) or (old["failure"], reason_in(old)) == (new["failure"], reason_in(new))
