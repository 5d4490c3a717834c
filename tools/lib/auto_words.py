"""The words of tools/auto."""
import os
from collections import namedtuple

SECONDS, MOST_SECONDS = 20.0, 1000000.0
MOST_JOBS = 1024

Asked = namedtuple("Asked", "action files seconds jobs program")


def number(word, least, most):
    """The number that a word is, or None outside the range."""
    try:
        value = float(word)
    except ValueError:
        return None
    return value if least <= value <= most else None


def read(words):
    """What the words ask for, or None."""
    found = {"--seconds": SECONDS, "--jobs": os.cpu_count() or 1, "--program": None}
    action, files, rest = "answer", [], list(words)
    while rest:
        word = rest.pop(0)
        if word in ("--list", "--gather") and action == "answer":
            action = word[2:]
        elif word in found and rest:
            value = rest.pop(0)
            limits = {"--seconds": (0.1, MOST_SECONDS), "--jobs": (1, MOST_JOBS)}.get(word)
            found[word] = number(value, *limits) if limits else value
        elif word == "-" or not word.startswith("-"):
            files.append(word)
        else:
            return None
    fits = len(files) >= 1 if action == "list" else len(files) == 1
    if not fits or found["--seconds"] is None or found["--jobs"] is None or found["--jobs"] != int(found["--jobs"]):
        return None
    if found["--program"] and action != "list":
        return None
    return Asked(action, files, found["--seconds"], int(found["--jobs"]), found["--program"])
