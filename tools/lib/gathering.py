"""Many problems on many machines: commands for GNU parallel, and the table of what came back.

A command is self-contained: it holds its problem and needs the program, a shell, `timeout` and nothing else. What it
prints begins with a line that names problem and setting and ends with the program's status. What comes back isn't
trusted: the problem is made anew from the file, its proof goes through `scott check`, and a model is tried clause by
clause.
"""
import os
import re
import shlex
import sys
from collections import namedtuple

from forms import form_of
from language import Refused, clause_text
from models import is_model, read_model
from race import Race, Task
from schedule import NODES, SIZES, settings_for
from searching import PROOF
from settings import text_of
from sources import read_source

MOST_COMMAND = 100000
CHECK_SECONDS = 600
# what one command prints; the end is wanting where it was cut off
PRINTED = re.compile(rb"^% auto (\S+) (\S+) \S+\n% begun ([\d.]+)\n(.*?)(?:^% status (\d+)\n% ended ([\d.]+)\n|(?=^% auto )|\Z)", re.M | re.S)

# what came back of one command; kind: proof, model, none, open or fault
Result = namedtuple("Result", "path setting kind seconds told")


def tried_models(problem):
    """The tasks of `model`, with the problem in clauses of one list."""
    text = "list(usable).\n%send_of_list.\n" % "".join(clause_text(clause) + ".\n" for clause in problem.clauses)
    return [("model-%d" % size, ("model", "--size", str(size), "--nodes", str(NODES[-1])), text) for size in sorted(SIZES)]


def tasks(path):
    """(setting, words, text) for each thing to try on a file."""
    with open(path, "rb") as file:
        problem = read_source(file.read()).problem
    form = form_of(problem)
    return [(made.name, made.words, text_of(made)) for made in settings_for(problem, form)] + tried_models(problem)


def command(path, setting, words, text, seconds, program):
    """One line for a shell. A problem's text has neither quotes nor % where it was printed from its clauses."""
    call = "timeout %g %s %s" % (seconds, shlex.quote(program), " ".join(words))
    head = shlex.quote("%% auto %s %s %g" % (path, setting, seconds))
    return "echo %s; date '+%%%% begun %%s.%%N'; echo '%s' | %s; echo \"%% status $?\"; date '+%%%% ended %%s.%%N'" % (
        head, text.replace("\n", " ").strip(), call)


def commands(paths, seconds, program):
    """The commands of all files, and 2 where a file has none."""
    lines, status = [], 0
    for path in paths:
        try:
            found = [command(path, *task, seconds, program) for task in tasks(path)] if path.split() == [path] else None
        except Refused as refused:
            sys.stderr.write("%s: %s\n" % (path, refused))
            status = 3
            continue
        if found is None or max(map(len, found)) > MOST_COMMAND:
            sys.stderr.write("%s: %s; run tools/auto on it by itself\n" % (path, "the name has blanks" if found is None else "too long for a command"))
            status = max(status, 2)
        else:
            lines += found
    return "".join(line + "\n" for line in lines), status


class Gathering:
    """Results under judgement; files and their tasks are read once each."""

    def __init__(self, race):
        self.race, self.known = race, {}

    def text(self, path, setting):
        """The problem that a setting makes of a file, or None."""
        if path not in self.known:
            try:
                self.known[path] = {name: text for name, _, text in tasks(path)}
            except (OSError, Refused):
                self.known[path] = {}
        return self.known[path].get(setting)

    def judge(self, printed):
        """What one command's output is worth."""
        path, setting, begun, body, status, ended = printed
        path, setting = path.decode(errors="replace"), setting.decode(errors="replace")
        text = self.text(path, setting)
        if text is None:
            return Result(path, setting, "fault", None, "no such problem or setting here")
        if not status:
            return Result(path, setting, "open", None, "cut off")
        seconds, code = float(ended) - float(begun), int(status)
        if code == 0:
            kind, told = self.model(text, body) if setting.startswith("model-") else self.proof(text, body)
            return Result(path, setting, kind, seconds, told)
        none = setting.startswith("model-") and code == 1
        return Result(path, setting, "none" if none else "open", seconds, "status %d" % code)

    def proof(self, text, body):
        section = PROOF.search(body)
        checked = self.race.alone(Task(("check",), text.encode() + (section.group() if section else b""), "check"), CHECK_SECONDS)
        if checked.status == 0:
            return "proof", "%d lines" % (section.group().count(b"\n") - 2)
        return "fault", "its proof isn't accepted: %s" % checked.output.decode(errors="replace").strip()

    def model(self, text, body):
        problem = read_source(text.encode()).problem
        tables = read_model(body.decode(errors="replace"))
        return ("model", "size %d" % tables.size) if tables and is_model(problem, tables) else ("fault", "no model of it")


def outputs(folder):
    """The bytes of each file in the folder and below it."""
    for at, folders, names in sorted(os.walk(folder)):
        folders.sort()
        for name in sorted(names):
            with open(os.path.join(at, name), "rb") as file:
                yield file.read()


def best(results):
    """The result that says most of a problem: a fault, then the fastest proof or model."""
    order = ("fault", "proof", "model", "none", "open")
    return min(results, key=lambda it: (order.index(it.kind), it.seconds or 0))


def row(path, results):
    first = best(results)
    settled = first.kind in ("fault", "proof", "model")
    seconds = "" if first.seconds is None or not settled else "%.1f" % first.seconds
    told = first.told if settled else "%d settings, none with an answer" % len(results)
    return "%-60s %-8s %-18s %8s  %s" % (path, first.kind if settled else "open", first.setting if settled else "", seconds, told)


def table(program, folder):
    """The table of a folder, and 2 where something in it is at fault or open."""
    found = {}
    with Race(program) as race:
        gathering = Gathering(race)
        for output in outputs(folder):
            for printed in PRINTED.findall(output):
                result = gathering.judge(printed)
                found.setdefault(result.path, []).append(result)
    lines = ["%-60s %-8s %-18s %8s  %s" % ("problem", "answer", "setting", "seconds", "told")]
    lines += [row(path, results) for path, results in sorted(found.items())]
    kinds = [best(results).kind for results in found.values()]
    lines.append("%d problems: %d proofs, %d models, %d open, %d at fault" % (
        len(kinds), kinds.count("proof"), kinds.count("model"), kinds.count("open") + kinds.count("none"), kinds.count("fault")))
    return "\n".join(lines) + "\n", 0 if set(kinds) <= {"proof", "model"} else 2
