"""What the labs share: namespaces, listening with tcpdump, and comparing a plan with what devices say."""

import contextlib
import os
import shutil
import signal
import subprocess
import sys
import tempfile
import time

sys.dont_write_bytecode = True
HERE = os.path.dirname(os.path.abspath(__file__))
TOOLS = os.path.join(HERE, os.pardir, "tools")
sys.path.append(os.path.join(TOOLS, "import"))

from network import put  # noqa: E402

SPACE = "mstplan-lab-"
CONFIGURATION, TOPOLOGY_CHANGE = "00000000", "00000080"


def run(*words, **more):
    return subprocess.run(words, check=True, stdout=subprocess.PIPE, text=True, **more).stdout


def inside(host, *words):
    return ("ip", "netns", "exec", SPACE + host, *words)


def ip(host, *words):
    run("ip", "-n", SPACE + host, *words)


def make_spaces(stack, hosts):
    """A namespace for each host, which is taken away, with all that is in it, when the stack is left."""
    for host in hosts:
        run("ip", "netns", "add", SPACE + host)
        stack.callback(subprocess.run, ("ip", "netns", "del", SPACE + host), check=False)
        ip(host, "link", "set", "lo", "up")


def start(stack, words, log):
    """Starts a process that is ended when the stack is left."""
    with open(log, "w", encoding="utf-8") as file:
        process = subprocess.Popen(words, stdin=subprocess.DEVNULL, stdout=file, stderr=subprocess.STDOUT)
    stack.callback(process.wait)
    stack.callback(process.terminate)


def settle(states, passing):
    """Waits until what these devices say has no state of those that pass, and has stayed the same for some seconds."""
    last, since, limit = None, time.monotonic(), time.monotonic() + 90
    while last is None or time.monotonic() - since < 8 or any(state in passing for state in last):
        found = list(states())
        if found != last:
            last, since = found, time.monotonic()
        if time.monotonic() > limit:
            sys.exit("the network doesn't settle")
        time.sleep(0.5)


def as_rapid(line):
    """STP's configuration BPDU as an RST BPDU of the same fields: only designated ports send them, so the role is known; learning
    and forwarding are written as of a port that has settled."""
    flags = int(line[8:10], 16) & 1 | 3 << 2 | 1 << 4 | 1 << 5
    return f"00000202{flags:02x}{line[10:70]}00" if line.startswith(CONFIGURATION) else line


class Lab:
    """The comparisons of a network that has been made, and how many of them failed."""

    def __init__(self, program, folder):
        self.program, self.folder, self.failed = program, folder, 0

    def say(self, passed, text, others=()):
        self.failed += not passed
        print("" if passed else "FAILED", text, flush=True)
        for line in others:
            put(f"    {line}")

    def ask(self, words, given):
        ran = subprocess.run([self.program, *words], input=given, stdout=subprocess.PIPE, text=True, check=False)
        return ran.returncode, ran.stdout.splitlines()

    def imported(self, network, unread):
        """The script of a network, of which no line may be refused."""
        script = "\n".join(network.script()) + "\n"
        status, told = self.ask(["run", "-"], script)
        sizes = f"{len(network.bridges)} bridges, {sum(len(it.ports) for it in network.bridges)} ports, {len(network.lans)} LANs"
        passed = status == 0 and not told and not unread
        self.say(passed, f"imported: {sizes}; {len(told)} lines refused", network.told + unread + told)
        return script

    def compare(self, what, network, script, apart=None):
        """A plan of a script, and what the devices say of the network at the same time. The bridge `apart`, if one is named, is
        known to be a root that the plan hasn't: its root and its cost are to differ."""
        status, tree = self.ask(["run", "-"], script + "showtree 0\n")
        others, compared = network.differences(tree)
        known = [line for line in others if line.startswith(f"{apart}: ")]
        others = [line for line in others if line not in known]
        told = f"; but for {apart}, whose root and cost do" if apart else ""
        passed = status == 0 < compared and not others and len(known) == (2 if apart else 0)
        self.say(passed, f"{what}: {compared} values compared, {len(others)} differ{told}", others)

    def listen(self, ports):
        """What tcpdump prints of some seconds on these ports, as lines of captures."""
        logs = [os.path.join(self.folder, f"tcpdump-{host}-{port}") for host, port in ports]
        with contextlib.ExitStack() as stack:
            for (host, port), log in zip(ports, logs):
                start(stack, inside(host, "tcpdump", "-x", "-nn", "-l", "-i", port, "stp"), log)
            time.sleep(6)
        text = ""
        for log in logs:
            with open(log, encoding="utf-8") as file:
                text += file.read()
            os.remove(log)
        with open(os.path.join(self.folder, "tcpdump"), "w", encoding="utf-8") as file:
            file.write(text)
        lines = run(sys.executable, os.path.join(TOOLS, "captures.py"), input=text).splitlines()
        return [line for line in lines if not line.startswith(("#", TOPOLOGY_CHANGE))]

    def check(self, what, script, ports):
        """The BPDUs on the wire by `mstplan check`. Those of STP, which it refuses, are compared in the form of RST BPDUs."""
        heard = self.listen(ports)
        plan = os.path.join(self.folder, "script")
        with open(plan, "w", encoding="utf-8") as file:
            file.write(script)
        _, told = self.ask(["check", plan, "-"], "\n".join(heard))
        refused = sum(line.endswith("B04 version or type") for line in told)
        stp = sum(line.startswith(CONFIGURATION) for line in heard)
        self.say(refused == stp, f"{what}: {len(heard)} BPDUs, {stp} of them STP's; {refused} refused for their version (B04)")
        _, told = self.ask(["check", plan, "-"], "\n".join(map(as_rapid, heard)))
        others = [line for line in told if not line.endswith(" agrees")]
        senders = len({line.split()[2] for line in told if line not in others})
        agree = len(told) - len(others)
        self.say(0 < agree == len(heard), f"{what}: {agree} BPDUs of {senders} ports agree, {len(others)} differ", others)

    def changes(self, script, edits):
        _, told = self.ask(["run", "-"], script + "mark\n" + edits + "changes\n")
        vectors, roles = (sum(line.startswith(it) for line in told) for it in ("bridge ", "port "))
        print("", f"planned changes: {vectors} of vectors, {roles} of roles", flush=True)


def main(usage, tools, experiment):
    """Runs an experiment in a folder of its own, or in the one that is named, and takes away what it has made."""
    if len(sys.argv) not in (2, 3):
        sys.exit(usage)
    if os.geteuid() != 0:
        sys.exit("network namespaces are made by root alone")
    missing = [tool for tool in tools if not shutil.which(tool)]
    if missing:
        sys.exit(f"missing: {' '.join(missing)}")
    if SPACE in run("ip", "netns", "list"):
        sys.exit(f"there are namespaces {SPACE}* of another run; ip netns del takes them away")
    signal.signal(signal.SIGTERM, lambda *_: sys.exit("ended"))
    with contextlib.ExitStack() as stack:
        folder = stack.enter_context(tempfile.TemporaryDirectory())
        # Debian's lldpctl runs as a user of lldpd's own, who is to reach the sockets.
        os.chmod(folder, 0o755)
        lab = Lab(os.path.abspath(sys.argv[1]), sys.argv[2] if len(sys.argv) == 3 else os.path.join(folder, "kept"))
        os.makedirs(lab.folder, exist_ok=True)
        experiment(lab, stack, folder)
    sys.exit(1 if lab.failed else 0)
