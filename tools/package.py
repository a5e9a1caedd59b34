#!/usr/bin/env python3
"""Makes packages of a built program, for machines without the toolchain: mstplan_VERSION_amd64.deb and mstplan_VERSION_amd64.tar.gz.

usage: package.py PROGRAM [FOLDER]    (FOLDER takes the packages; the one where it is called, if left out)

PROGRAM is crates/mstplan/out/mstplan, which `rt ci` leaves where all is proved, or one that unproved.py has made. VERSION is what
`PROGRAM --version` prints, with +unproved behind it for a program from any other place than crates/mstplan/out.

Both packages have the program, its completion for bash, fish and zsh, syntax files for Vim and VS Code, an action of GitHub and a
template of GitLab, all of examples/, the texts of docs/, and each file of tools/ and of tools/import/ that is run as a command of its
own: page.py is mstplan-page, import/links.py mstplan-import-links; but for those that are of use in the repository alone, this one,
completion.py and unproved.py. Each command has a manual page, which is made of its `--help`. These commands need Python 3.10 or later;
the program needs the C library alone. The .tar.gz runs from wherever it is unpacked.

The program as it is built names the toolchain's loader and the place of its libraries. In the packages it names the system's
loader, and no place: the loader's name and the table of entries that it reads are changed where they stand, so neither patchelf nor
a linker is needed. What is never loaded, as symbols, is left out, and all else, code and data, is the same byte for byte.

The packages are the same, byte for byte, for one program and one state of the repository: times are SOURCE_DATE_EPOCH in seconds, or
else that of the last commit, or where git doesn't tell it 0. They end with status 0; 1 where dpkg-deb is missing, so that only the
.tar.gz is made; 2 for wrong words; 3 where PROGRAM can't be run or isn't of the form that is known, and where a file can't be read or
written.
"""

import email.utils
import glob
import gzip
import hashlib
import os
import re
import shutil
import struct
import subprocess
import sys
import tarfile
import tempfile
import time

sys.dont_write_bytecode = True

import completion  # noqa: E402
import mstplan  # noqa: E402

HERE = os.path.dirname(os.path.abspath(__file__))
TOP = os.path.dirname(HERE)
PROVED = os.path.join(TOP, "crates", "mstplan", "out", "mstplan")
MAINTAINER = "Nuvaingy maintainers <maintainers@users.noreply.nuvaingy.example>"
LOADER = b"/lib64/ld-linux-x86-64.so.2"
# Debian's packages of the libraries that a program may need.
PACKAGES = {"libc.so.6": "libc6", "libm.so.6": "libc6", "ld-linux-x86-64.so.2": "libc6", "libgcc_s.so.1": "libgcc-s1"}
# Segments and entries of ELF: the loader's name, the entries for the loader, and of these the end, libraries, and where they are.
SEGMENT_DYNAMIC, SEGMENT_LOADER, SEGMENT_LOADED = 2, 3, 1
END, NEEDED, TEXTS, PLACES = 0, 1, 5, (15, 29)
# A section's flag of what is loaded, and that of one that has another's number.
ALLOCATED, HAS_NUMBER = 2, 64
# What tools/ has of use: commands, what they import, and what they put together.
TOOLS = ("*.py", "import/*.py", "web/*", "ci/*")
# The tools that are of use in the repository alone.
OF_REPOSITORY = ("completion.py", "package.py", "unproved.py")
# Where each shell looks for what completes a command.
COMPLETIONS = {"bash": "share/bash-completion/completions/mstplan", "fish": "share/fish/vendor_completions.d/mstplan.fish",
               "zsh": "share/zsh/vendor-completions/_mstplan"}
# Where an editor looks for files, by their folder below tools/.
EDITORS = {"editors/vim": "share/vim/vimfiles", "editors/vscode": "share/mstplan/vscode"}
# What stands before the name of a file below tools/, for a command of the folder that is first.
PLACES_OF = {("", ""): "", ("", "import"): "import/", ("import", ""): "../", ("import", "import"): ""}
WRAPPER = """#!/bin/sh
here=$(dirname "$(readlink -f "$0")")
exec python3 "$here/../share/mstplan/{file}" "$@"
"""
DESCRIPTION = """Description: planner for spanning tree networks{suffix}
 mstplan plans Ethernet networks that run rapid and multiple spanning trees
 (RSTP and MSTP, IEEE 802.1Q-2022 clause 13). It reads a script of bridges,
 ports, LANs and cables, and tells which bridge is the root of each tree, which
 ports forward and which parts of a VLAN stay connected.
"""
COPYRIGHT = """mstplan

Copyright {year} {maintainer}

No licence has been given yet. So nobody but the holders of the copyright may
copy, change or pass on this program, these commands and these texts, beyond
what the law allows without a licence.
"""
CHANGES = """mstplan ({version}) unstable; urgency=medium

  * What has changed is told release by release in CHANGELOG.md, beside this
    file.

 -- {maintainer}  {date}
"""


def said(program, *words):
    """What a program prints, as text. Ends with 3 where it can't be run or fails."""
    try:
        return mstplan.Program(program).text(*words)
    except mstplan.Failed as why:
        return fault(str(why))


def fault(text):
    print(f"package.py: {text}", file=sys.stderr)
    sys.exit(3)


class Elf:
    """A program of ELF with 64 bits, the lower octet first: its octets, and its segments as (type, offset, address, size)."""

    def __init__(self, data):
        self.data = bytearray(data)
        if data[:6] != b"\x7fELF\x02\x01":
            fault("the program is none of ELF with 64 bits")
        (start,), (size, count) = struct.unpack_from("<Q", data, 32), struct.unpack_from("<HH", data, 54)
        heads = [struct.unpack_from("<IIQQQQQQ", data, start + at * size) for at in range(count)]
        self.segments = [(kind, offset, address, length) for kind, _, offset, address, _, length, _, _ in heads]

    def segment(self, kind):
        """The offset and the size of the segment of a type, both 0 where there is none: a program may need no loader."""
        return next(((offset, length) for its, offset, _, length in self.segments if its == kind), (0, 0))

    def entries(self):
        """The entries for the loader, as (tag, value), and their offset."""
        offset, length = self.segment(SEGMENT_DYNAMIC)
        return [struct.unpack_from("<QQ", self.data, at) for at in range(offset, offset + length, 16)], offset

    def libraries(self):
        """The names of the libraries that it needs."""
        entries, _ = self.entries()
        texts = next((value for tag, value in entries if tag == TEXTS), 0)
        start = next((offset + texts - address for kind, offset, address, length in self.segments
                      if kind == SEGMENT_LOADED and address <= texts < address + length), 0)
        names = [start + value for tag, value in entries if tag == NEEDED]
        return [self.data[at:self.data.index(b"\0", at)].decode() for at in names]

    def use_system(self):
        """Names the system's loader, and no place for libraries but the system's; both in place."""
        offset, length = self.segment(SEGMENT_LOADER)
        if length and length <= len(LOADER):
            fault("the name of the program's loader is too short to be replaced")
        self.data[offset:offset + length] = LOADER.ljust(length, b"\0") if length else b""
        entries, offset = self.entries()
        kept = [it for it in entries if it[0] not in PLACES]
        kept += [(END, 0)] * (len(entries) - len(kept))
        for at, it in enumerate(kept):
            struct.pack_into("<QQ", self.data, offset + 16 * at, *it)


    def strip(self):
        """Leaves out what is never loaded (symbols, comments): the sections that are get a table of their own, behind all that is."""
        (start,), (size, count, names) = struct.unpack_from("<Q", self.data, 40), struct.unpack_from("<HHH", self.data, 58)
        heads = [list(struct.unpack_from("<IIQQQQIIQQ", self.data, start + at * size)) for at in range(count)]
        if not start or not heads:
            return
        kept = [at for at, head in enumerate(heads) if at in (0, names) or head[2] & ALLOCATED]
        numbers = {at: number for number, at in enumerate(kept)}
        texts, table = bytearray(b"\0"), bytearray()
        for head in (heads[at] for at in kept[1:]):
            begin = heads[names][4] + head[0]
            head[0] = len(texts)
            texts += self.data[begin:self.data.index(b"\0", begin) + 1]
            head[6] = numbers.get(head[6], 0)
            head[7] = numbers.get(head[7], 0) if head[2] & HAS_NUMBER else head[7]
        end = max(offset + length for _, offset, _, length in self.segments)
        heads[names][4:6] = end, len(texts)
        for at in kept:
            table += struct.pack("<IIQQQQIIQQ", *heads[at])
        self.data = (self.data[:end] + texts).ljust(end + -(-len(texts) // 8) * 8 + -end % 8, b"\0")
        struct.pack_into("<Q", self.data, 40, len(self.data))
        struct.pack_into("<HHH", self.data, 58, 64, len(kept), numbers[names])
        self.data += table


def needed(elf):
    """The packages that Debian has what the program needs in, the C library of the least version that has all its symbols."""
    libraries = elf.libraries()
    strange = [it for it in libraries if it not in PACKAGES]
    if strange:
        fault(f"the program needs {' '.join(strange)}, which isn't known")
    versions = [tuple(map(int, it.split(b"."))) for it in re.findall(rb"\0GLIBC_([0-9]+\.[0-9]+)", bytes(elf.data))]
    least = ".".join(map(str, max(versions, default=(2, 34))))
    return sorted({f"{PACKAGES[it]} (>= {least})" if PACKAGES[it] == "libc6" else PACKAGES[it] for it in libraries})


def roff(text):
    """A text as roff has it."""
    text = text.replace("\\", "\\e").replace("-", "\\-")
    return "\\&" + text if text.startswith((".", "'")) else text


def roff_body(lines, heading):
    """Lines of a help as roff: a heading ends with a colon, an item has two spaces before it and two before what it means."""
    for line in lines:
        item = re.fullmatch(r"  (\S.*?)(?:\s{2,}(\S.*))?", line)
        if re.fullmatch(r"\S.*:", line):
            name, more = re.fullmatch(r"([^,(]+)(.*):", line).groups()
            yield f'{heading} "{roff(name.strip())}"'
            if more:
                yield roff(more.strip(" ,")[:1].upper() + more.strip(" ,")[1:] + ".")
        elif item:
            yield f".TP\n.B {roff(item[1])}\n{roff(item[2] or '')}".rstrip()
        elif line.strip():
            yield roff(line.strip())
        else:
            yield ".PP"


def manual(version, page, pages):
    """The manual page of the program's help and of those of its commands."""
    lines = page.splitlines()
    about = lines[0].split(". ")[0].rstrip(".")
    at = next(at for at, line in enumerate(lines) if line.startswith("Usage:"))
    yield f'.TH MSTPLAN 1 "" "mstplan {version}" "User Commands"'
    yield f".SH NAME\nmstplan \\- {roff(about[0].lower() + about[1:])}"
    yield f".SH SYNOPSIS\n.B {roff(lines[at].removeprefix('Usage:').strip())}"
    yield f".SH DESCRIPTION\n{roff(lines[0])}."
    yield from (line.upper() if line.startswith(".SH") else line for line in roff_body(lines[at + 1:], ".SH"))
    yield ".SH WORDS OF EACH COMMAND"
    for command, its in pages.items():
        first, *others = its.splitlines()
        yield f".SS {command}\n{roff(first)}."
        for line in others:
            if line.startswith("Usage:"):
                yield f".PP\n.B {roff(line.removeprefix('Usage:').strip())}"
        yield from roff_body([line for line in others if re.match(r"  [<\[]", line)], ".SS")
    yield ".SH FILES\n.TP\n.I /usr/share/doc/mstplan/\nThe language in full (docs/RULES.md), a walk (docs/USING.md), and examples."
    yield see_also(sorted(commands_of_tools()))


def see_also(commands):
    return ".SH SEE ALSO\n" + "\n".join(f".BR {roff(it)} (1)" + "," * (it != commands[-1]) for it in commands)


def paragraph(lines):
    """A paragraph of a tool's page as roff: an example, items below a heading, or a text."""
    if all(line.startswith("  ") for line in lines):
        return ["", ".nf", *(roff(line) for line in lines), ".fi"]
    if re.fullmatch(r"[^.]*:", lines[0]) and all(line.startswith("  ") for line in lines[1:]):
        return roff_body([re.sub(r"^ {4,}", "", line) for line in lines], ".SH")
    return [".PP", *(".br\n" * line.startswith("  ") + roff(line.strip()) for line in lines)]


def manual_of_tool(command, version, page):
    """The manual page of a tool, of what it says of itself."""
    paragraphs = [[line.rstrip() for line in it.splitlines()] for it in re.split(r"\n\s*\n", page.strip("\n"))]
    usage = next(it for it in paragraphs if it[0].startswith("usage:"))
    first, *others = [it for it in paragraphs if it is not usage]
    about = re.split(r"[.:;] |[.:;]$", " ".join(first))[0]
    yield f'.TH {command.upper()} 1 "" "mstplan {version}" "User Commands"'
    yield f".SH NAME\n{roff(command)} \\- {roff(about[0].lower() + about[1:])}"
    yield f".SH SYNOPSIS\n.B {roff(re.sub(r' +', ' ', ' '.join(usage)).removeprefix('usage:').strip())}"
    yield ".SH DESCRIPTION"
    yield from (line.upper() if line.startswith(".SH") else line for its in (first, *others) for line in paragraph(its))
    yield see_also(["mstplan", *(it for it in sorted(commands_of_tools()) if it != command)])


def write(root, name, data, mode=0o644):
    """Writes a file below a folder, text or bytes."""
    path = os.path.join(root, name)
    os.makedirs(os.path.dirname(path), exist_ok=True)
    with open(path, "wb") as file:
        file.write(data if isinstance(data, bytes) else data.encode())
    os.chmod(path, mode)


def read(*path):
    with open(os.path.join(*path), "rb") as file:
        return file.read()


def commands_of_tools():
    """Each command, with the folder and the name of its file below tools/: a file is one where it is to be run."""
    commands = {}
    for path in sorted(it for name in TOOLS[:2] for it in glob.glob(os.path.join(HERE, name))):
        folder, name = os.path.split(os.path.relpath(path, HERE))
        if b'\nif __name__ == "__main__":\n' in read(path) and name not in OF_REPOSITORY:
            commands["-".join(filter(None, ("mstplan", folder, name.removesuffix(".py"))))] = (folder, name)
    return commands


def with_commands(text, folder, commands):
    """A text of a command of a folder below tools/, where the files that are commands have the names that they have in the package."""
    named = {PLACES_OF[folder, its] + name: command for command, (its, name) in commands.items()}
    named |= {os.path.join("tools", *its): command for command, its in commands.items()}
    return re.sub(r"(?<![\w./])(?:python3 )?((?:\w+/|\.\./)*\w+\.py)\b", lambda it: named.get(it[1], it[0]), text)


def add_commands(root, version):
    """The tools, each by the name that it has here, so that it says that of itself, with a manual page; and what goes along with them."""
    commands, share = commands_of_tools(), os.path.join("share", "mstplan")
    texts = {os.path.relpath(path, HERE): read(path) for name in TOOLS for path in sorted(glob.glob(os.path.join(HERE, name))) if os.path.isfile(path)}
    imported = {word for text in texts.values() for word in re.findall(rb"^\s*(?:from|import) (\w+)", text, re.MULTILINE)}
    for name, text in texts.items():
        is_module = os.path.split(name) not in commands.values() or os.path.basename(name).removesuffix(".py").encode() in imported
        if is_module and name not in OF_REPOSITORY:
            write(root, os.path.join(share, name), re.sub(rb"^#!.*\n", b"", text))
    for command, (folder, name) in commands.items():
        write(root, os.path.join(share, folder, command), with_commands(read(HERE, folder, name).decode(), folder, commands), 0o755)
        write(root, os.path.join("bin", command), WRAPPER.format(file=os.path.join(folder, command)), 0o755)
        ran = subprocess.run([os.path.join(root, "bin", command), "--help"], capture_output=True, check=True, text=True, env={**os.environ, "COLUMNS": "120"})
        add_manual(root, command, manual_of_tool(command, version, ran.stdout))


def add_manual(root, command, lines):
    write(root, f"share/man/man1/{command}.1.gz", gzip.compress(("\n".join(lines) + "\n").encode(), mtime=0))


def add_editors(root):
    """The syntax files for editors."""
    for folder, place in EDITORS.items():
        for path in glob.glob(os.path.join(HERE, folder, "**"), recursive=True):
            if os.path.isfile(path):
                write(root, os.path.join(place, os.path.relpath(path, os.path.join(HERE, folder))), read(path))


def add_texts(root, version, epoch):
    """Texts and examples, in the folders that the texts name; who may do what with them; and what has changed."""
    doc = os.path.join("share", "doc", "mstplan")
    paths = [os.path.join(TOP, "README.md"), os.path.join(TOP, "CHANGELOG.md"), *(it for folder in ("docs", "examples") for it in glob.glob(os.path.join(TOP, folder, "**"), recursive=True))]
    for path in sorted(it for it in paths if os.path.isfile(it) and not it.endswith(".py")):
        write(root, os.path.join(doc, os.path.relpath(path, TOP)), read(path))
    write(root, os.path.join(doc, "copyright"), COPYRIGHT.format(year=time.gmtime(epoch).tm_year, maintainer=MAINTAINER))
    changes = CHANGES.format(version=version, maintainer=MAINTAINER, date=email.utils.formatdate(epoch).replace("-0000", "+0000"))
    write(root, os.path.join(doc, "changelog.gz"), gzip.compress(changes.encode(), mtime=0))


def add_program(root, program, version):
    """The program with the system's loader, its manual page and its completion: the packages that it needs."""
    page = said(program, "--help")
    commands = list(completion.commands_in(page)) or fault("the program's help names no commands")
    elf = Elf(read(program))
    elf.use_system()
    elf.strip()
    write(root, "bin/mstplan", bytes(elf.data), 0o755)
    add_manual(root, "mstplan", manual(version, page, {it: said(program, it, "--help") for it in commands}))
    for shell, path in COMPLETIONS.items():
        write(root, path, completion.SHELLS[shell](page))
    return needed(elf)


def files(root):
    """The names of all files below a folder, sorted."""
    return sorted(os.path.relpath(os.path.join(at, name), root) for at, _, names in os.walk(root) for name in names)


def make_archive(root, top, path, epoch):
    """A .tar.gz of a folder's files under the name `top`."""
    with open(path, "wb") as raw, gzip.GzipFile("", "wb", 9, raw, epoch) as packed, tarfile.open(fileobj=packed, mode="w") as archive:
        for name in files(root):
            its = tarfile.TarInfo(os.path.join(top, name))
            its.size, its.mtime = os.path.getsize(os.path.join(root, name)), epoch
            its.mode = os.stat(os.path.join(root, name)).st_mode & 0o777
            with open(os.path.join(root, name), "rb") as file:
                archive.addfile(its, file)


def make_deb(stage, version, depends, path, epoch):
    """A .deb of a folder that has usr/."""
    names = files(stage)
    size = sum(os.path.getsize(os.path.join(stage, name)) for name in names)
    sums = "".join(f"{hashlib.md5(read(stage, name)).hexdigest()}  {name}\n" for name in names)
    control = (
        f"Package: mstplan\nVersion: {version}\nArchitecture: amd64\nMaintainer: {MAINTAINER}\nInstalled-Size: {-(-size // 1024)}\n"
        f"Recommends: python3 (>= 3.10)\nSuggests: graphviz\nSection: net\nPriority: optional\n"
    )
    control += f"Depends: {', '.join(depends)}\n" if depends else ""
    write(stage, "DEBIAN/control", control + DESCRIPTION.format(suffix=" (not proved)" if version.endswith("+unproved") else ""))
    write(stage, "DEBIAN/md5sums", sums)
    for at, folders, names in os.walk(stage, topdown=False):
        for it in (at, *(os.path.join(at, name) for name in names)):
            os.utime(it, (epoch, epoch))
        os.chmod(at, 0o755)
    said_so = {**os.environ, "SOURCE_DATE_EPOCH": str(epoch)}
    words = ["dpkg-deb", "--root-owner-group", "-Zgzip", "--build", stage, path]
    subprocess.run(words, check=True, stdout=subprocess.DEVNULL, env=said_so)


def epoch_of():
    """The time that files get."""
    epoch = os.environ.get("SOURCE_DATE_EPOCH")
    if epoch is None:
        try:
            epoch = subprocess.run(["git", "-C", TOP, "log", "-1", "--format=%ct"], capture_output=True, check=True, text=True).stdout.strip()
        except (OSError, subprocess.CalledProcessError):
            epoch = "0"
    return int(epoch) if epoch.isdecimal() else fault(f"SOURCE_DATE_EPOCH is {epoch}, and no number of seconds")


def make(program, folder):
    """Makes the packages: their paths."""
    version = said(program, "--version").split()[1]
    if os.path.realpath(program) != os.path.realpath(PROVED):
        version += "+unproved"
    epoch = epoch_of()
    name = os.path.join(folder, f"mstplan_{version}_amd64")
    os.makedirs(folder, exist_ok=True)
    with tempfile.TemporaryDirectory() as stage:
        root = os.path.join(stage, "usr")
        depends = add_program(root, program, version)
        add_commands(root, version)
        add_editors(root)
        add_texts(root, version, epoch)
        make_archive(root, f"mstplan-{version}", name + ".tar.gz", epoch)
        if not shutil.which("dpkg-deb"):
            return [name + ".tar.gz"]
        make_deb(stage, version, depends, name + ".deb", epoch)
    return [name + ".deb", name + ".tar.gz"]


def main():
    words = sys.argv[1:]
    if any(it in ("--help", "-h") for it in words):
        print(__doc__.strip())
        return
    if len(words) not in (1, 2):
        print(__doc__.splitlines()[2], file=sys.stderr)
        sys.exit(2)
    try:
        made = make(os.path.abspath(words[0]), words[1] if len(words) == 2 else ".")
    except (OSError, subprocess.CalledProcessError) as why:
        fault(str(why))
    print("\n".join(made))
    if len(made) == 1:
        print("package.py: dpkg-deb is missing: no .deb is made", file=sys.stderr)
        sys.exit(1)


if __name__ == "__main__":
    main()
