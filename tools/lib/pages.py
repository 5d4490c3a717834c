"""The repository's pages: their links, the paths that they name, and the commands that they show with their outputs."""
import os
import re
import subprocess
import tempfile

from calls import run

# the folders whose files a page may name by a path in code
FOLDERS = "bin|crates|docs|examples|release|tools"
FENCE = re.compile(r"^(```+)[ \t]*([^\n`]*)\n(.*?)^\1[ \t]*$", re.M | re.S)
LINK = re.compile(r"\[[^\]]*\]\(\s*<?([^)\s>]+)>?[^)]*\)|^\[[^\]]+\]:\s*(\S+)", re.M)
NAMED = re.compile(r"`((?:%s)/[A-Za-z0-9_./-]*[A-Za-z0-9_-])/?`" % FOLDERS)

ENDINGS = ("", ".antt", ".rt")

SECONDS = 60


def pages(top):
    """The paths of all pages, from the top, but for those in hidden folders and in what was built."""
    found = []
    for at, folders, files in os.walk(top):
        folders[:] = sorted(it for it in folders if not it.startswith(".") and it != "out")
        found += [os.path.relpath(os.path.join(at, it), top) for it in sorted(files) if it.endswith(".md")]
    return found


def text_of(top, page):
    with open(os.path.join(top, page), encoding="utf-8") as file:
        return file.read()


def anchors(text):
    """The anchors of a page's headings: lowercase, letters, digits, `-` and `_`, with a number where one comes again."""
    found = set()
    for heading in re.findall(r"^#{1,6} +(.*?) *#*$", FENCE.sub("", text), re.M):
        shown = re.sub(r"\[([^\]]*)\]\([^)]*\)", r"\1", heading)
        name = re.sub(r"[^\w\- ]", "", shown.lower()).replace(" ", "-")
        number, base = 1, name
        while name in found:
            name, number = "%s-%d" % (base, number), number + 1
        found.add(name)
    return found


def link_fault(top, page, target):
    """Why a link of a page leads nowhere, or None."""
    path, _, anchor = target.partition("#")
    to = os.path.normpath(os.path.join(os.path.dirname(page), path)) if path else page
    if to.startswith("..") or not os.path.exists(os.path.join(top, to)):
        return "%s: the link %s leads nowhere" % (page, target)
    if anchor and (not to.endswith(".md") or anchor not in anchors(text_of(top, to))):
        return "%s: the link %s has no such heading" % (page, target)
    return None


def links(top):
    """How many relative links of all pages lead somewhere, and what is wrong with the others."""
    passed, found = 0, []
    for page in pages(top):
        text = re.sub(r"`[^`\n]*`", "", FENCE.sub("", text_of(top, page)))
        for target in [one or other for one, other in LINK.findall(text)]:
            if not re.match(r"[a-z]+:", target):
                fault = link_fault(top, page, target)
                passed, found = passed + (fault is None), found + ([fault] if fault else [])
    return passed, found


def paths(top):
    """The same of the paths that the pages name in code, with or without the ending; what is built, in out/, isn't looked for."""
    passed, found = 0, []
    for page in pages(top):
        for path in sorted(set(NAMED.findall(FENCE.sub("", text_of(top, page))))):
            if "/out" in path or re.search(r"\b[A-Z]{2,}\b(?!\.md)", path):
                continue
            if any(os.path.exists(os.path.join(top, path + ending)) for ending in ENDINGS):
                passed += 1
            else:
                found.append("%s: there is no %s" % (page, path))
    return passed, found


def commands(block):
    """The commands of a block, each with the output that is shown of it; a command goes on behind a backslash at a line's end."""
    found = []
    for line in block.splitlines(True):
        if line.startswith("$ "):
            found.append([line[2:], ""])
        elif found[-1][0].endswith("\\\n") and not found[-1][1]:
            found[-1][0] += line
        else:
            found[-1][1] += line
    return found


def consoles(top):
    """The blocks of all pages that show commands: without a word behind the fence, or with `console`, and `$ ` at their begin."""
    found = []
    for page in pages(top):
        for number, (_, word, block) in enumerate(FENCE.findall(text_of(top, page)), 1):
            if word.strip() in ("", "console") and block.startswith("$ "):
                found.append(("%s, block %d" % (page, number), block))
    return found


def console_fault(folder, name, block):
    """Runs a block's commands in turn, and says where what one writes isn't what is shown, or None."""
    status = 0
    for command, shown in commands(block):
        try:
            status, told, _ = run(["bash", "-c", "(exit %d)\n%s" % (status, command)], seconds=SECONDS, stderr=subprocess.STDOUT, cwd=folder)
        except subprocess.TimeoutExpired:
            return "%s: `%s` had not ended after %d seconds" % (name, command.strip(), SECONDS)
        told = told.decode(errors="replace")
        if told != shown:
            return "%s: `%s` wrote %r, and %r is shown" % (name, command.strip(), told[:200], shown[:200])
    return None


def shown_commands(top, program):
    """How many blocks show what their commands write, and what is wrong with the others.

    Each block is run in a folder of its own that has what the top has, so that nothing is written into the checkout;
    bin/scott is the program there.
    """
    passed, found = 0, []
    for name, block in consoles(top):
        with tempfile.TemporaryDirectory(prefix="scott-console-") as folder:
            for entry in os.listdir(top):
                if entry not in ("bin", ".git"):
                    os.symlink(os.path.join(top, entry), os.path.join(folder, entry))
            os.mkdir(os.path.join(folder, "bin"))
            os.symlink(program, os.path.join(folder, "bin", "scott"))
            fault = console_fault(folder, name, block)
        passed, found = passed + (fault is None), found + ([fault] if fault else [])
    return passed, found
