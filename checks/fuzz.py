"""Inputs that are no device's, for each importer: its samples with changes, random bytes, and JSON with what doesn't belong there.

However an input is, an importer is to end by itself: without a traceback, with nothing printed that isn't printable, and with
nothing in the script but comments and the commands that make a network. Of each twentieth input the program runs the script too,
and is to refuse no line. All is the same in each run.
"""

import contextlib
import functools
import io
import itertools
import json
import operator
import os
import random
import re
import subprocess
import traceback

import cisco
import links
import lldp
import ovs
from network import write

SAMPLES = os.path.join(os.path.dirname(os.path.abspath(__file__)), os.pardir, "examples", "import")
SEED, INPUTS, RUN_OF = 802, 2000, 20
LONGEST_LINE, MOST_TOLD = 4096, 5
COMMAND = re.compile(r"mstplan 2|(addbridge|kind|bridge|addport|addlan|speed|plug|set[a-z0-9]+)( [!-~]+){1,4}|# .*|#")
# Texts as a stranger would send them, and values of other types and sizes than are wanted.
TEXTS = ["", "\x1b[2J\x1b[31m", "p1\naddbridge evil 02:00:00:00:ee:ee", "\r\nlan x down", "\u202egniht", "\u2028", "\x9b1m",
         "a\x00b", "\ud800", "é", '"', "'; x", "core-1", "br0", "p1", "x" * 300, "-", "..", "0x0", "8000.2:0:0:0:0:1", "7" * 4000]
VALUES = [None, True, False, -1, 0, 1, 4095, 4096, 65536, 1 << 70, 1.5, 1e308, [], {}, [[]], {"": {}}, {"name": "p1"},
          ["map", [[1, 2]]], ["set", [[]]], ["uuid", "x"]]
BYTES = [b"\xff", b"\xe9", b"\x00", b"\n", b"\r", b"\x1b[2J", b'"', b"{", b"]", b",", b" ", b"#", b"=", b":", b"99999999999",
         b"\xe2\x80\xa8"]


def value(chance):
    return chance.choice(TEXTS) if chance.random() < 0.8 else chance.choice(VALUES)


def documents(text):
    """What a text's JSON says, one after another."""
    found, text, decoder = [], text.strip(), json.JSONDecoder()
    while text:
        it, at = decoder.raw_decode(text)
        found.append(it)
        text = text[at:].lstrip()
    return found


def ways(it, way=()):
    """The keys that lead to each value in what JSON says."""
    for key in it if isinstance(it, dict) else range(len(it)) if isinstance(it, list) else ():
        yield (*way, key)
        yield from ways(it[key], (*way, key))


@functools.lru_cache
def all_ways(data):
    return list(ways(documents(data.decode())))


def changed_json(chance, data):
    """A text of JSON with a few of its values replaced, taken away, repeated or put under another key."""
    told = documents(data.decode())
    for way in chance.choices(all_ways(data), k=chance.randint(1, 10)):
        # where an earlier change has taken the way away, this one is none
        with contextlib.suppress(KeyError, IndexError, TypeError):
            *way, key = way
            at = functools.reduce(operator.getitem, way, told)
            its, kind = at[key], chance.random()
            if kind < 0.8:
                at[key] = value(chance)
            elif kind < 0.9:
                del at[key]
            elif isinstance(at, dict):
                at[chance.choice(TEXTS)] = its
            elif isinstance(at, list):
                at.append(its)
    return "\n".join(map(json.dumps, told)).encode()


def changed_bytes(chance, data):
    """Bytes of which a few are replaced, taken away, repeated or put in."""
    data = bytearray(data)
    for _ in range(chance.randint(1, 6)):
        at, count = chance.randint(0, len(data)), chance.randint(0, 40)
        its = chance.choice(BYTES) if chance.random() < 0.6 else chance.choice(TEXTS).encode("utf-8", "surrogatepass")
        kind = chance.randint(0, 3)
        data[at:at + (count if kind == 0 else len(its) if kind == 1 else 0)] = its if kind < 3 else data[at:at + count]
    return bytes(data[:chance.randint(0, len(data))] if chance.random() < 0.1 else data)


def changed_words(chance, data):
    """A text of which a few words are replaced by others of it, or by a stranger's."""
    words = re.split(rb"(\s+)", data)
    for _ in range(chance.randint(1, 6)):
        its = chance.choice(words) if chance.random() < 0.6 else chance.choice(TEXTS).encode("utf-8", "surrogatepass")
        words[chance.randrange(len(words))] = its
    return b"".join(words)


def deep(chance):
    """JSON of more levels, or a longer number, than can be read."""
    its = b'{"lldp":' + b"[" * 5_000 + b"]" * 5_000 + b"}"
    return chance.choice([b"[" * 100_000, b'{"a":' * 50_000, its, b"1" * 9_000, b"NaN", b"[NaN]"])


def changed(chance, data):
    """A sample's bytes, changed in one of all ways."""
    kind = chance.random()
    if kind < 0.03:
        return bytes(chance.randrange(256) for _ in range(chance.randint(0, 400)))
    if kind < 0.04:
        return deep(chance)
    if kind < 0.3:
        return changed_bytes(chance, data)
    with contextlib.suppress(ValueError, RecursionError):
        return changed_json(chance, data)
    return changed_words(chance, data)


def samples(*names):
    """The bytes of these samples, by the name of the file."""
    found = {}
    for name in names:
        with open(os.path.join(SAMPLES, name), "rb") as file:
            found[os.path.basename(name)] = file.read()
    return found


def hosts():
    """Two hosts of the lab, with VLANs that one of them would have."""
    names = [f"lab/{host}.{end}" for host in ("core-1", "core-2") for end in ("link", "lldp")]
    vlans = [{"ifname": "p1", "vlans": [{"vlan": 1, "flags": ["PVID"]}, {"vlan": 10, "vlanEnd": 20}]}]
    return samples(*names) | {"core-1.vlan": json.dumps(vlans).encode()}


def switches():
    """Three switches of Cisco's, one of them with a text of LLDP."""
    names = [f"cisco/campus/{host}.{end}" for host in ("core1", "dist1", "acc2") for end in ("mst", "config", "cdp")]
    return samples(*names[:-1], "cisco/campus/acc2.lldp")


def nexus():
    """Two switches with NX-OS, one of them with a text of CDP and one with one of LLDP."""
    return samples(*(f"cisco/nexus/CORE-NX-0{it}" for it in ("1.mst", "1.config", "1.cdp", "2.mst", "2.config", "2.lldp")))


# What is typed for a text of Cisco's, and how a terminal puts a pager's mark away.
TYPED = {"config": "sh run", "mst": "show spanning-tree mst", "cdp": "sh cdp nei det", "lldp": "show lldp neighbors detail | no-more"}
PAGERS = (" --More-- " + "\b" * 9 + " " * 8 + "\b" * 9, "\x1b[7m--More--\x1b[27m\r\x1b[K", "--More--\r\n")


def logs(files):
    """The texts of switches as a log of each switch's session, with a pager's mark in each twelfth line."""
    found, marks = {}, itertools.cycle(PAGERS)
    for name in sorted(files):
        host, _, ending = name.rpartition(".")
        lines = files[name].decode().split("\n")
        lines[12::12] = [next(marks) + it for it in lines[12::12]]
        told = found.setdefault(f"{host}.log", f"=~=~= PuTTY log =~=~=\r\nPassword:\r\n{host}>en\r\n{host}#term len 0\r\n{host}#sh ver\r\nCisco IOS Software\r\n")
        found[f"{host}.log"] = told + "\r\n".join([f"{host}#{TYPED[ending]}", *lines, ""])
    return {name: f"{text}{name.removesuffix('.log')}#exit\r\n".encode() for name, text in found.items()}


def of_network(reader):
    """What runs an importer that makes a network of files, bytes by name."""
    return lambda files: write(*reader.read_files(files))


# Each importer's samples, of which an input has one set, and what runs it.
IMPORTERS = {
    "links.py": ([*(samples(f"campus/{name}.txt") for name in ("links", "switches")), samples("campus/cables.csv", "campus/switches.csv")], of_network(links)),
    "lldp.py": ([hosts()], of_network(lldp)),
    "cisco.py": ([switches(), nexus(), logs(switches())], of_network(cisco)),
    "ovs.py": ([samples(f"ovs/{name}") for name in ("stp", "bonds", "settings")], of_network(ovs)),
}


def printed(run, files):
    """What an importer prints of files on both streams, and the traceback where it ends by one."""
    out, err = io.StringIO(), io.StringIO()
    with contextlib.redirect_stdout(out), contextlib.redirect_stderr(err):
        try:
            run(files)
        except SystemExit:
            pass
        except Exception:  # whatever it is, it is what is looked for
            return out.getvalue(), err.getvalue(), traceback.format_exc()
    return out.getvalue(), err.getvalue(), None


def wrong_with(out, err):
    """What may not be printed, as a list."""
    lines = out.split("\n")[:-1]
    wrong = [f"printed raw: {line!r}" for line in (*lines, *err.split("\n")) if not line.isprintable()]
    wrong += [f"no line of a network: {line!r}" for line in lines if not COMMAND.fullmatch(line)]
    wrong += [f"a line of {len(line)} letters" for line in lines if len(line.encode()) > LONGEST_LINE]
    return wrong


def check(program, importer):
    """What is wrong with an importer's inputs, as a list."""
    its, run = IMPORTERS[importer]
    chance, wrong = random.Random(f"{SEED} {importer}"), []
    for count in range(INPUTS):
        files = dict(chance.choice(its))
        for name in chance.sample(list(files), k=min(len(files), chance.choice((1, 1, 2)))):
            files[name] = changed(chance, files[name])
        out, err, trace = printed(run, files)
        its_wrong = [trace] if trace else wrong_with(out, err)
        if count % RUN_OF == 0 and not its_wrong:
            ran = subprocess.run([program, "run", "-"], input=out.encode(), capture_output=True, check=False)
            its_wrong = ran.stdout.decode(errors="replace").splitlines()
        wrong += [f"input {count}: {line}" for line in its_wrong]
    return wrong[:MOST_TOLD] + ([f"and {len(wrong) - MOST_TOLD} more"] if len(wrong) > MOST_TOLD else [])
