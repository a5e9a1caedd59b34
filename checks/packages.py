#!/usr/bin/env python3
"""Makes the packages of a program, unpacks them into a folder of their own, and checks what is in them.

usage: packages.py PROGRAM [--root]

Checked are: two packages of one program are equal; each file's owner and mode; of what is loaded the program differs from PROGRAM in
the name of its loader and the table that it reads alone, it has no symbols, and it runs from there; the manual pages render without a
warning, and the program's names each command; the completions are read by bash, fish and zsh and complete; Vim knows a script by its
files; those for CI services judge a repository with two commits; each other command calls itself by its name, and some run on a sample; what README.md and docs/USING.md name of examples, docs and
tools is there; the .tar.gz has the same files; lintian finds no error. Where a tool for one of them isn't there (man, bash, fish, zsh, vim,
lintian), it is named, and the check is left out.
Where dpkg-deb isn't there, that is said, and nothing is checked, with status 0.

With --root, as root, a Debian of its own is made with debootstrap in a folder (of this machine's release and from its source of
packages), the .deb is installed there by apt, and the program and an importer run there. It takes some minutes.

It ends with status 0; 1 where a check fails; 2 for wrong words.
"""

import functools
import os
import re
import shutil
import subprocess
import sys
import tarfile
import tempfile

sys.dont_write_bytecode = True

TOOLS = os.path.join(os.path.dirname(os.path.abspath(__file__)), os.pardir, "tools")
sys.path.append(TOOLS)

import package  # noqa: E402

DOC = "usr/share/doc/mstplan"
SOURCES = "/etc/apt/sources.list.d/debian.sources"
# Some commands with words and standard input below the samples, and how the first line begins that each prints.
RUNS = [
    ("mstplan-import-links", ["import/campus/links.txt"], None, "mstplan 2"),
    ("mstplan-import-lldp", ["import/lab"], None, "mstplan 2"),
    ("mstplan-import-ovs", ["import/ovs/rstp"], None, "mstplan 2"),
    ("mstplan-import-cisco", ["import/cisco/campus"], None, "mstplan 2"),
    ("mstplan-import-captures", ["triangle.tcpdump"], None, "mstplan 2"),
    ("mstplan-captures", [], "triangle.tcpdump", "# "),
    ("mstplan-digest", ["ac36177f50283cd4b83821d8ab26de62"], None, "# "),
    ("mstplan-page", ["../../../../bin/mstplan", "campus.script"], None, "<!"),
    ("mstplan-order", ["--help"], None, "usage: "),
    ("mstplan-promises", ["--help"], None, "usage: "),
    ("mstplan-export", ["--help"], None, "usage: "),
    ("mstplan-ci", ["--run", "../../../../bin/mstplan", "campus.script", "campus.policy"], None, "16 of 16 promises are kept"),
    ("mstplan-colour", ["../../../../bin/mstplan", "sweep", "campus.script"], None, "lan c1-c2.a "),
    ("mstplan-parallel", ["../../../../bin/mstplan", "sweep", "campus.script"], None, "lan c1-c2.a "),
]
# What the texts name of the repository, and what of that isn't for a package: what makes one.
NAMED = re.compile(r"(?<![\w/.])(?:(?:examples|docs)/[\w./-]*\w|tools/(?:import/)?\w+\.py)")
OF_REPOSITORY = {f"tools/{it}" for it in package.OF_REPOSITORY}


def ran(*words, **more):
    return subprocess.run(words, capture_output=True, check=False, **more)


class Checks:
    """Checks, and how many of them failed."""

    def __init__(self):
        self.passed, self.failed = 0, 0

    def say(self, text, wrong):
        """A check and what is wrong, as a list of lines, or an empty one."""
        self.passed += not wrong
        self.failed += bool(wrong)
        for line in wrong:
            print(f"FAILED {text}: {line}")

    def left_out(self, text, tool):
        print(f"left out, for {tool} is missing: {text}")


def made(program, folder):
    """Makes packages in a folder, and leaves the .deb's path, or what is wrong."""
    its = ran(sys.executable, os.path.join(TOOLS, "package.py"), program, folder, text=True)
    return its.stdout.split(), [] if its.returncode == 0 else its.stderr.splitlines() or ["no package"]


def modes(root, deb):
    """What is wrong with the owners and modes of a package's files."""
    wrong = []
    for line in ran("dpkg-deb", "-c", deb, text=True).stdout.splitlines():
        if line.split()[1] != "root/root":
            wrong.append(f"not root's: {line}")
    for at, folders, names in os.walk(root):
        for name in (*folders, *names):
            path = os.path.join(at, name)
            is_run = os.path.isdir(path) or at.endswith("/bin") or open(path, "rb").read(2) == b"#!"
            mode = os.stat(path).st_mode & 0o7777
            if mode != (0o755 if is_run else 0o644):
                wrong.append(f"{os.path.relpath(path, root)} has mode {mode:o}")
    return wrong


def loaded(elf):
    """What of a program is loaded, but for what the loader reads."""
    data = bytearray(elf.data)
    for kind in (package.SEGMENT_LOADER, package.SEGMENT_DYNAMIC):
        offset, length = elf.segment(kind)
        data[offset:offset + length] = bytes(length)
    # of its head the place and the number of sections
    data[40:48], data[60:64] = bytes(8), bytes(4)
    return [data[offset:offset + length] for kind, offset, _, length in elf.segments if kind == package.SEGMENT_LOADED]


def program_of(program, root):
    """What is wrong with the packaged program: it is to differ in what the loader reads alone, and to say what PROGRAM says."""
    packaged = os.path.join(root, "usr/bin/mstplan")
    with open(program, "rb") as one, open(packaged, "rb") as other:
        before, after = package.Elf(one.read()), package.Elf(other.read())
    has_loader = package.LOADER + b"\0" in after.data or after.segment(package.SEGMENT_LOADER) == (0, 0)
    wrong = [] if has_loader else ["it hasn't the system's loader"]
    wrong += [] if loaded(before) == loaded(after) else ["code or data differ"]
    wrong += ["it has symbols"] if b"\0.symtab\0" in after.data else []
    wrong += [f"it needs {it}" for it in re.findall(r"=> (\S*toolchain\S*|not found)", ran("ldd", packaged, text=True).stdout)]
    script = os.path.join(root, DOC, "examples/campus.script")
    for words in (["--version"], ["summary", script], ["run", script]):
        if ran(packaged, *words).stdout != ran(program, *words).stdout:
            wrong.append(f"{' '.join(words)} prints something else than PROGRAM")
    return wrong


def manual_of(root, commands):
    """What is wrong with the manual pages."""
    wrong = []
    for command in ["mstplan", *package.commands_of_tools()]:
        shown = ran("man", "-l", "--warnings=w", os.path.join(root, f"usr/share/man/man1/{command}.1.gz"), text=True,
                    env={**os.environ, "MANWIDTH": "100", "LC_ALL": "C.UTF-8"})
        wanted = (*commands, "--hints", "addbridge B MAC", "NAME") if command == "mstplan" else ("NAME", f"{command} - ", "SYNOPSIS")
        its = shown.stderr.splitlines() + ([] if shown.returncode == 0 else [f"status {shown.returncode}"])
        its += [f"it has no {it}" for it in wanted if it not in re.sub(r"\s+", " ", shown.stdout)]
        wrong += [f"{command}: {it}" for it in its]
    return wrong


def completed(commands):
    """Words behind `mstplan`, the last of which is completed, and what that may be."""
    return [([""], commands), (["su"], ["summary"]), (["summary", "--j"], ["--json"]), (["check", "--h"], ["--help", "--hints"]), (["as"], ["ask"]),
            (["advise", "campus.script", ""], ["root", "forward"]), (["advise", "-", "f"], ["forward"]), (["dot", "campus.script", "v"], ["vlan"]),
            (["sweep", "--json", "campus.script", "p"], ["pairs"]), (["sweep", "campus.script", "pairs", "3/"], [f"3/{it}" for it in (2, 4, 8, 16)]),
            (["sweep", "campus.script", "1"], [f"1/{it}" for it in (2, 4, 8, 16)]), (["path", "campus.script", "30", "A", "B", ""], ["always"]),
            (["dot", "--"], ["--help", "--hints", "--version"]), (["ask", "--"], ["--help", "--hints", "--json", "--version"])]


# How each shell is asked for what it offers: bash and zsh by their function, in which zsh's own words are stood in for, fish by its own word.
ASKED = {
    "bash": '. "$1"; shift; COMP_WORDS=(mstplan "$@"); COMP_CWORD=$#; _mstplan; printf "%s\\n" "${COMPREPLY[@]}"',
    "zsh": "file=$1; shift; compadd() { print -l -- ${@:#--} }; _describe() { print -l -- ${commands%%:*} }; _files() { : }; "
           'at=("$@"); words=(mstplan "$@"); CURRENT=$#words; for it in ${(f)"$(. $file)"}; do [[ $it == $at[-1]* ]] && print -r -- $it; done; true',
    "fish": "source $argv[1]; complete -C (string join -- ' ' mstplan $argv[2..]) | string split -f1 \\t",
}
PLAIN = {"bash": ["--norc"], "zsh": ["-f"], "fish": ["--no-config"]}
# How each names a folder where a file may stand; zsh's own word for files is stood in for.
A_FOLDER = {"bash": "share", "zsh": "", "fish": "share/"}


def completion_of(root, shell, commands):
    """What is wrong with the completion of a shell."""
    folder, path = os.path.join(root, "usr"), os.path.join(root, "usr", package.COMPLETIONS[shell])
    wrong = ran(shell, "-n", path, text=True).stderr.splitlines()
    for words, wanted in [*completed(commands), (["sweep", "campus.script", "sha"], A_FOLDER[shell].split())]:
        behind = [] if shell == "fish" else [shell]
        its = ran(shell, *PLAIN[shell], "-c", ASKED[shell], *behind, path, *words, text=True, cwd=folder)
        wrong += [] if sorted(its.stdout.split()) == sorted(wanted) else [f"{shell} offers behind mstplan {' '.join(words)}: {its.stdout} {its.stderr}"]
    return wrong


def editors_of(root):
    """What is wrong with the files for editors: Vim is to know a script by them."""
    folder, script = os.path.join(root, "usr/share/vim/vimfiles"), os.path.join(root, DOC, "examples/campus.script")
    known = os.path.join(root, "known")
    words = [f"set runtimepath^={folder}", "filetype on", "syntax on", f"edit {script}", f"call writefile([b:current_syntax], '{known}')", "qall!"]
    ran("vim", "-u", "NONE", "-i", "NONE", "-es", *(word for it in words for word in ("-c", it)), stdin=subprocess.DEVNULL)
    is_known = os.path.exists(known) and open(known, encoding="ascii").read() == "mstplan\n"
    return [] if is_known else ["Vim doesn't know a script"]


# What each service's file runs run.sh with, and what stands in these files of another word.
SERVICES = {"action.yml": '--github --markdown "$GITHUB_STEP_SUMMARY" --junit "$JUNIT"',
            "gitlab.yml": "--junit mstplan.xml --gitlab gl-code-quality-report.json --markdown mstplan.md"}


def repository(folder, samples):
    """A repository whose first commit has the campus, and whose second one its change."""
    os.mkdir(folder)
    git = ("git", "-C", folder, "-c", "user.name=a", "-c", "user.email=a@b")
    ran(*git, "init", "--quiet")
    for name, message in (("campus.script", "before"), ("campus-changed.script", "after")):
        shutil.copy(os.path.join(samples, name), os.path.join(folder, "net.script"))
        for it in ("campus.policy", "keep.policy", "worse.change"):
            shutil.copy(os.path.join(samples, it), folder)
        ran(*git, "add", ".")
        ran(*git, "commit", "--quiet", "-m", message)
    return ran(*git, "rev-parse", "HEAD~1", text=True).stdout.strip()


def run_of(root, folder, service, **words):
    """One run as a service does it: the line of its file, with its words."""
    place = os.path.join(root, "usr/share/mstplan/ci")
    with open(os.path.join(place, service), encoding="utf-8") as file:
        line = re.search(r"(?:run: |    - )(sh .*)", file.read())[1]
    given = {"GITHUB_ACTION_PATH": place, "MSTPLAN": os.path.join(root, "usr"), "GITHUB_STEP_SUMMARY": os.path.join(folder, "summary.md"), "JUNIT": "mstplan.xml", "CHANGE": ""}
    return line, ran("bash", "-c", line, cwd=folder, text=True, env={**os.environ, **given, **words})


def services_of(root, folder):
    """What is wrong with the files for services, each run in a repository as the service runs it."""
    before, wrong = repository(folder, os.path.join(root, DOC, "examples")), []
    for service, words in SERVICES.items():
        line, its = run_of(root, folder, service, SCRIPT="net.script", POLICY="campus.policy", BASE=before)
        told = "::error file=net.script,line=98," if service == "action.yml" else "by net.script:98: setportvlans acc2 2 10,20"
        wrong += [] if words in line and its.returncode == 1 and told in its.stdout and not its.stderr else [f"{service}: {its}"]
    wrong += [f"no {it}" for it in ("summary.md", "mstplan.md", "mstplan.xml", "gl-code-quality-report.json") if not os.path.exists(os.path.join(folder, it))]
    for base, change, told in (("0" * 40, "", "file=keep.policy,line=2,"), ("", "", "file=keep.policy,line=2,"), (before, "worse.change", "file=worse.change,line=8,")):
        _, its = run_of(root, folder, "action.yml", SCRIPT="net.script", POLICY="keep.policy", BASE=base, CHANGE=change)
        wrong += [] if its.returncode == 1 and told in its.stdout else [f"BASE {base}, CHANGE {change}: {its}"]
    return wrong


def commands_of(root):
    """What is wrong with the other commands."""
    wrong, samples = [], os.path.join(root, DOC, "examples")
    for command in package.commands_of_tools():
        its = ran(os.path.join(root, "usr/bin", command), "--help", text=True)
        if its.returncode != 0 or not re.search(rf"^usage: {command}( |$)", its.stdout, re.MULTILINE):
            wrong.append(f"{command} --help: status {its.returncode}, and it doesn't call itself so")
        wrong += [f"{command} --help names {it}" for it in re.findall(r"\bpython3 \S+", its.stdout)]
    for command, words, given, begins in RUNS:
        with open(os.path.join(samples, given) if given else os.devnull, "rb") as file:
            its = ran(os.path.join(root, "usr/bin", command), *words, cwd=samples, stdin=file)
        if its.returncode != 0 or not its.stdout.decode().startswith(begins):
            wrong.append(f"{command}: status {its.returncode}, {its.stdout[:80]!r}, {its.stderr[-200:]!r}")
    return wrong


def texts_of(root):
    """What the texts name, and the package hasn't."""
    wrong, commands = [], {os.path.join("tools", *its) for its in package.commands_of_tools().values()}
    for text in ("README.md", "docs/USING.md"):
        with open(os.path.join(root, DOC, text), encoding="utf-8") as file:
            names = set(NAMED.findall(file.read())) - OF_REPOSITORY - commands
        wrong += [f"{text} names {it}" for it in sorted(names) if not os.path.exists(os.path.join(root, DOC, it))]
    return wrong


def errors_of(deb):
    """The errors that lintian finds."""
    its = ran("lintian", "--fail-on", "error", "--allow-root", deb, text=True)
    return [line for line in its.stdout.splitlines() if line.startswith("E:")] or ([f"lintian: {its.stderr}"] if its.returncode else [])


def archive_of(root, archive, folder):
    """What is wrong with the .tar.gz: it is to have the .deb's files, and to run where it is unpacked."""
    with tarfile.open(archive) as its:
        its.extractall(folder)
    top = os.path.join(folder, os.listdir(folder)[0])
    same = ran("diff", "-r", os.path.join(root, "usr"), top, text=True)
    summary = ran(os.path.join(top, "bin/mstplan"), "summary", os.path.join(top, "share/doc/mstplan/examples/campus.script"))
    return same.stdout.splitlines() + ([] if summary.returncode == 0 else ["the program doesn't run"])


def source():
    """This machine's release of Debian, and where its packages come from."""
    with open("/etc/os-release", encoding="utf-8") as file:
        release = re.search(r"^VERSION_CODENAME=(\S+)", file.read(), re.MULTILINE)
    text = ""
    for path in (SOURCES, "/etc/apt/sources.list"):
        if os.path.exists(path):
            with open(path, encoding="utf-8") as file:
                text += file.read()
    place = re.search(r"^URIs: (\S+)|^deb (?:\[.*\] )?(\S+)", text, re.MULTILINE)
    return release[1] if release else "stable", (place[1] or place[2]) if place else "http://deb.debian.org/debian"


def root_of(deb, folder):
    """What is wrong where the package is installed in a Debian of its own."""
    release, place = source()
    its = ran("debootstrap", "--variant=minbase", release, folder, place, text=True)
    if its.returncode != 0:
        return [f"debootstrap: status {its.returncode}", *its.stdout.splitlines()[-3:]]
    shutil.copy(deb, folder)
    name, quiet = os.path.basename(deb), {**os.environ, "DEBIAN_FRONTEND": "noninteractive", "PATH": "/usr/sbin:/usr/bin:/sbin:/bin"}
    wrong = []
    for text, wanted in (
        (f"apt-get install -y --no-install-recommends ./{name}", "Setting up mstplan"),
        (f"mstplan summary /{DOC}/examples/campus.script", "tree 0 root core1 4096 of 6 next core2 8192"),
        ("apt-get install -y python3", "Setting up python3"),
        (f"mstplan-import-links /{DOC}/examples/import/campus/links.txt | mstplan run - && echo nothing refused", "nothing refused"),
        ("apt-get remove -y mstplan && ! command -v mstplan", "Removing mstplan"),
    ):
        its = ran("chroot", folder, "sh", "-c", f"cd / && {text}", text=True, env=quiet)
        if its.returncode != 0 or wanted not in its.stdout:
            wrong += [f"{text}: status {its.returncode}", *its.stdout.splitlines()[-5:], *its.stderr.splitlines()[-5:]]
    return wrong


def check_contents(checks, program, folder):
    """The packages and what is in them: the .deb's path, or None."""
    (first, wrong), (second, _) = (made(program, os.path.join(folder, it)) for it in ("first", "second"))
    checks.say("packages", wrong)
    if wrong:
        return None
    different = [os.path.basename(one) for one, other in zip(first, second) if open(one, "rb").read() != open(other, "rb").read()]
    checks.say("made twice", [f"{it} isn't the same again" for it in different])
    deb, archive = first
    root = os.path.join(folder, "unpacked")
    checks.say("unpacked", ran("dpkg-deb", "-x", deb, root, text=True).stderr.splitlines())
    commands = re.findall(r"^  ([a-z]+)  ", ran(program, "--help", text=True).stdout.partition("Options:")[0], re.MULTILINE)
    checks.say("owners and modes", modes(root, deb))
    checks.say("the program", program_of(program, root))
    checks.say("commands", commands_of(root))
    checks.say("what the texts name", texts_of(root))
    checks.say("the archive", archive_of(root, archive, os.path.join(folder, "archive")))
    for tool, text, its in (("man", "the manual pages", lambda: manual_of(root, commands)), ("vim", "the files for editors", lambda: editors_of(root)),
                            ("git", "the files for CI services", lambda: services_of(root, os.path.join(folder, "repository"))),
                            *((shell, f"the completion for {shell}", functools.partial(completion_of, root, shell, commands)) for shell in ASKED)):
        if shutil.which(tool):
            checks.say(text, its())
        else:
            checks.left_out(text, tool)
    if shutil.which("lintian"):
        checks.say("lintian", errors_of(deb))
    else:
        checks.left_out("errors of the package", "lintian")
    return deb


def main():
    words = [it for it in sys.argv[1:] if it != "--root"]
    if len(words) != 1 or words[0].startswith("-"):
        print(__doc__.strip())
        sys.exit(0 if "--help" in words else 2)
    if not shutil.which("dpkg-deb"):
        print("skipped: dpkg-deb is missing")
        return
    checks = Checks()
    with tempfile.TemporaryDirectory() as folder:
        deb = check_contents(checks, os.path.abspath(words[0]), folder)
        if "--root" in sys.argv and deb:
            if os.geteuid() == 0 and shutil.which("debootstrap"):
                checks.say("a Debian of its own", root_of(deb, os.path.join(folder, "root")))
            else:
                checks.left_out("a Debian of its own", "debootstrap, or being root,")
    print(f"{checks.passed} passed, {checks.failed} failed")
    sys.exit(1 if checks.failed else 0)


if __name__ == "__main__":
    main()
