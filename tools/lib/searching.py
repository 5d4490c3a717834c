"""One problem from start to answer: the schedule is run, the proof checked, and the answer told as a value."""
import re
import time
from collections import namedtuple

from race import Race, Task
from schedule import NODES, SIZES, Queue, settings_for
from settings import text_of

PROOF = re.compile(rb"^proof\.\n.*?^end_of_proof\.\n", re.M | re.S)
TURN = 0.02
RESERVE = 0.3

# kind: proof, model or neither. made: the setting of a proof. text: of the proof section or the model. rows: what each
# setting and size came to, in words. seconds: from the start.
Answer = namedtuple("Answer", "kind made text rows seconds")


def end_in_words(ended):
    """How a run of `prove` without a proof, or of `model`, ended."""
    if ended.status is None:
        return "out of time"
    lines = ended.output.decode(errors="replace").split("\n")
    if lines[0] != "run.":
        return lines[0] or "ended with status %d" % ended.status
    ends = [line[4:-1].replace("_", " ") for line in lines if line.startswith("end ")]
    given = sum(line.startswith("given ") for line in lines)
    kept = sum(line.startswith("kept ") for line in lines)
    return "%s; %d given, %d kept" % (ends[0] if ends else "cut off", given, kept)


class Search:
    """The schedule of one problem under way."""

    def __init__(self, race, problem, form, text, began, seconds, jobs):
        self.race, self.text, self.jobs = race, text, jobs
        self.began, self.until = began, began + seconds - min(RESERVE, seconds / 10)
        made = settings_for(problem, form)
        self.proofs = Queue(made_names(made), [it.share for it in made], 2)
        self.made = {it.name: it for it in made}
        self.models = Queue(list(SIZES), list(SIZES.values()), len(NODES))
        self.rows, self.answer, self.turn = {}, None, 0

    def left(self):
        return self.until - time.monotonic()

    def kinds(self):
        """Which queue goes first: models have one place of several, and every third turn of a single one."""
        modelling = any(run.task.tag[0] == "model" for run in self.race.running)
        self.turn += 1
        first = modelling or (self.jobs == 1 and self.turn % 3)
        return (("prove", self.proofs), ("model", self.models))[::1 if first else -1]

    def fill(self):
        """Starts what there is a place for."""
        while len(self.race.running) < self.jobs and self.left() > 0:
            if not any(self.begin(kind, queue) for kind, queue in self.kinds()):
                return

    def places(self, kind):
        """How many places a kind has in the long run."""
        other = self.models if kind == "prove" else self.proofs
        if other.empty():
            return self.jobs
        models = 1 if self.jobs > 1 else 1 / 3
        return models if kind == "model" else self.jobs - models

    def begin(self, kind, queue):
        tried = queue.next(self.left() * self.places(kind))
        if tried is None:
            return False
        thing, turn, seconds = tried
        if kind == "prove":
            task = Task(self.made[thing].words, text_of(self.made[thing]).encode(), (kind, thing))
        else:
            task = Task(("model", "--size", str(thing), "--nodes", str(NODES[turn])), self.text, (kind, thing))
        self.race.start(task, min(seconds, self.left()))
        return True

    def take(self, ended):
        """What an ended run tells; an answer where it is one."""
        kind, thing = ended.task.tag
        self.rows[ended.task.tag] = (end_in_words(ended), ended.seconds)
        if ended.status == 0:
            self.success(kind, thing, ended)
        elif ended.status is not None and not (kind == "model" and ended.output.startswith(b"spent")):
            (self.proofs if kind == "prove" else self.models).finish(thing)

    def success(self, kind, thing, ended):
        if kind == "model":
            self.answer = ("model", thing, ended.output.decode())
            return
        section = PROOF.search(ended.output)
        text = ended.task.text + (section.group() if section else b"")
        checked = self.race.alone(Task(("check",), text, ("check", thing)), max(self.left(), 0) + 0.5)
        if checked.status == 0:
            self.answer = ("proof", thing, section.group().decode())
            return
        said = end_in_words(checked)
        self.rows[ended.task.tag] = ("its proof wasn't accepted by check: %s" % said, ended.seconds)
        self.proofs.finish(thing)

    def words(self):
        """What runs now, for a line of progress."""
        now = time.monotonic()
        return ", ".join("%s %d (%.0f s)" % (*run.task.tag, now - run.began) if run.task.tag[0] == "model" else
                         "%s (%.0f s)" % (run.task.tag[1], now - run.began) for run in self.race.running)

    def run(self, show):
        self.fill()
        while self.race.running and self.answer is None:
            time.sleep(TURN)
            for ended in self.race.ended():
                if self.answer is None:
                    self.take(ended)
            if self.answer is None:
                self.fill()
            show(self)
        return self.told()

    def told(self):
        kind, thing, text = self.answer or ("neither", None, "")
        return Answer(kind, self.made[thing] if kind == "proof" else thing, text, self.rows, time.monotonic() - self.began)


def made_names(made):
    return [it.name for it in made]


def search(program, problem, form, text, began, seconds, jobs, show):
    """The answer of the schedule, within the limit; nothing that it started is left."""
    with Race(program) as race:
        return Search(race, problem, form, text, began, seconds, jobs).run(show)
