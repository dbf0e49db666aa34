#!/usr/bin/env python3
"""The commands in the documents, run from the repository's top and compared with what the documents show, on what the gate and `make` put into target/.
tests/documents.py [DOCUMENT ..]; without a name all: README.md and its like, docs/*.md, hosts/*/README.md.

The word behind its fence says what a block is; CONTRIBUTING.md, 'Documents', has the table:
  console   a line with '$ ' is typed, the lines below it must be what it prints, on either stream; '...' stands for any lines. It must end with 0.
            A block has a shell of its own; HOME is a temporary directory.
  c         written to the file below target/ that its first line names
  sqlite, psql, pycon   typed by `make sqlite`, `make postgres` and `make python`, if the document is one that these read
  sh        not run; the files and make targets that it names must exist
  text      no command
Beside that, links must lead to files, and make targets that are named anywhere must exist. Ends with 1 where something is wrong. What cannot be run here is
said in one line that begins with 'skipped: '."""
import os
import pathlib
import re
import shutil
import subprocess
import sys
import tempfile

top = pathlib.Path(__file__).resolve().parent.parent
os.chdir(top)
# who types a session, and of which documents
SESSIONS = {"sqlite": ("make sqlite", ["README.md", "docs/DATABASES.md"]), "psql": ("make postgres", ["docs/DATABASES.md"]),
            "pycon": ("make python", ["docs/DATABASES.md"])}
TOOLS = {"rt": "the kit", "cc": "gcc", "make": "make", "pkg-config": "pkg-config", "xxd": "xxd", "python3": "python3", "awk": "mawk"}
SECONDS = 300
MARK = "@@ended@@"
wrong, skipped = [], {}


class Block:
    def __init__(self, document, line, kind):
        self.document, self.line, self.kind, self.lines = document, line, kind, []

    def __str__(self):
        return f"{self.document}:{self.line}"


def blocks_of(document):
    """The fenced blocks of a document, their indentation taken away."""
    found, block, indent = [], None, ""
    for number, line in enumerate(pathlib.Path(document).read_text(encoding="utf-8").split("\n"), 1):
        fence = re.match(r"^( *)```(\w*)$", line)
        if block is None and fence:
            indent, block = fence[1], Block(document, number, fence[2])
        elif block and fence and not fence[2]:
            found.append(block)
            block = None
        elif block:
            block.lines.append(line[len(indent):])
    if block:
        wrong.append(f"{block}: the block does not end")
    return found


# ---- make targets, files, links

def targets(makefile):
    """The targets of a Makefile, and those that PostgreSQL's own one adds."""
    text = pathlib.Path(makefile).read_text(encoding="utf-8")
    names = {n for line in re.findall(r"^([^\s:=#][^:=\n]*):(?!=)", text, re.M) for n in line.split()}
    return names | ({"install", "installcheck"} if "PGXS" in text else set())


def check_make(where, words):
    """The targets of a command `make ..`."""
    makefile, words = "Makefile", list(words)
    while words:
        word = words.pop(0)
        if word == "-C":
            makefile = f"{words.pop(0)}/Makefile"
            if not pathlib.Path(makefile).is_file():
                wrong.append(f"{where}: no file {makefile}")
                return
        elif not word.startswith("-") and "=" not in word and not word.isupper() and word not in targets(makefile):
            wrong.append(f"{where}: {makefile} has no target {word}")


def check_sh(block):
    for line in block.lines:
        words = line.split("#")[0].split()
        while words and (words[0] == "sudo" or words[0] == "bash"):
            words = words[3:] if words[1:2] == ["-u"] else words[1:]
        if words[:1] == ["make"]:
            check_make(block, words[1:])
        elif words and "/" in words[0] and not pathlib.Path(words[0]).exists():
            wrong.append(f"{block}: no file {words[0]}")


def check_text(document):
    """Links, and make targets in running text."""
    text = pathlib.Path(document).read_text(encoding="utf-8")
    for number, line in enumerate(text.split("\n"), 1):
        for link in re.findall(r"\]\(([^)#\s]+)(?:#[^)]*)?\)", line):
            if "://" not in link and not (pathlib.Path(document).parent / link).exists():
                wrong.append(f"{document}:{number}: the link {link} leads nowhere")
        for command in re.findall(r"`make ([\w -][^`]*)`", line):
            check_make(f"{document}:{number}", command.split())


# ---- commands

def missing(command):
    """What a command needs and is not here, or nothing."""
    for tool, package in TOOLS.items():
        if re.search(rf"(?<![\w/.-]){tool}(?![\w.-])", command) and not shutil.which(tool):
            return f"{tool} is missing (Debian: {package})"
    if "htm_sqlite" in command and subprocess.run(["cc", "-E", "-"], input=b"#include <sqlite3.h>", capture_output=True).returncode:
        return "sqlite3.h is missing (Debian: libsqlite3-dev)"
    return None


def shown(block):
    """The commands of a block, each with the lines that it shall print."""
    commands = []
    for line in block.lines:
        if line.startswith("$ "):
            commands.append((line[2:], []))
        elif commands:
            commands[-1][1].append(line)
        else:
            wrong.append(f"{block}: a line before the first command")
    return commands


def matches(lines, printed):
    pattern = "".join("(?:.*\n)*?" if line == "..." else re.escape(line.rstrip()) + "\n" for line in lines)
    return re.fullmatch(pattern, printed) is not None


def run(block, home):
    """Runs the commands of a block in one shell; says how many print what is shown."""
    commands = shown(block)
    lacks = next(filter(None, (missing(c) for c, _ in commands)), None)
    if lacks:
        skipped[lacks] = skipped.get(lacks, 0) + len(commands)
        return 0
    script = "exec 2>&1 < /dev/null\n" + "".join(f"{c}\nprintf '\\n%s %d\\n' '{MARK}' $?\n" for c, _ in commands)
    environment = {k: v for k, v in os.environ.items() if k not in ("MAKEFLAGS", "MAKELEVEL", "HTM_LIBRARY_PATH", "PYTHONPATH", "LD_LIBRARY_PATH")}
    environment.update(HOME=home, LC_ALL="C.UTF-8", PYTHONDONTWRITEBYTECODE="1")
    try:
        out = subprocess.run(["bash", "-c", script], stdout=subprocess.PIPE, env=environment, timeout=SECONDS, text=True, errors="replace").stdout
    except subprocess.TimeoutExpired:
        wrong.append(f"{block}: takes over {SECONDS} s")
        return 0
    good, parts = 0, re.findall(rf"(.*?)\n{MARK} (\d+)\n", out, re.S)
    if len(parts) < len(commands):
        wrong.append(f"{block}: $ {commands[len(parts)][0]}\n  ends the shell")
    for (command, lines), part in zip(commands, parts):
        printed = "".join(line.rstrip() + "\n" for line in part[0].split("\n"))
        printed = printed[:-1] if printed.endswith("\n\n") or printed == "\n" else printed
        if part[1] != "0":
            wrong.append(f"{block}: $ {command}\n  ends with {part[1]} and prints\n{printed}")
        elif not matches(lines, printed):
            wrong.append(f"{block}: $ {command}\n  shall print\n" + "".join(f"{line}\n" for line in lines) + "  and prints\n" + printed)
        else:
            good += 1
    return good


def main(documents):
    ran = sessions = unrun = files = 0
    home = tempfile.mkdtemp()
    try:
        for document in documents:
            check_text(document)
            for block in blocks_of(document):
                if block.kind == "console":
                    ran += run(block, home)
                elif block.kind == "c":
                    named = re.match(r"/\* (target/[\w.]+)", block.lines[0] if block.lines else "")
                    if named:
                        pathlib.Path(named[1]).write_text("\n".join(block.lines) + "\n", encoding="utf-8")
                        files += 1
                    else:
                        wrong.append(f"{block}: the first line names no file below target/")
                elif block.kind in SESSIONS:
                    sessions += 1
                    who, read = SESSIONS[block.kind]
                    if document not in read:
                        wrong.append(f"{block}: {who} does not read this document")
                elif block.kind == "sh":
                    unrun += 1
                    check_sh(block)
                elif block.kind != "text":
                    wrong.append(f"{block}: a block of an unknown kind, '{block.kind}'")
    finally:
        shutil.rmtree(home, ignore_errors=True)
    if skipped:
        print("skipped: documents: " + "; ".join(f"{n} commands, {why}" for why, n in skipped.items()))
    if wrong:
        print("\n".join(wrong))
        print(f"documents: {len(wrong)} things are wrong")
        return 1
    print(f"documents: {ran} commands in {len(documents)} documents print what is shown; {sessions} blocks are typed by the hosts' tests, "
          f"{unrun} take minutes or install something, and only their names were checked")
    return 0


if __name__ == "__main__":
    found = (p for pattern in ("*.md", "docs/*.md", "hosts/*/README.md") for p in sorted(pathlib.Path(".").glob(pattern)))
    sys.exit(main(sys.argv[1:] or [str(p) for p in found]))
