"""Tests as functions whose names are sentences, and that yield whether each thing holds.

    def a_row_out_of_order_is_refused():
        yield refused(..) == ..

    sys.exit(run_tests("view", globals()))
"""
import inspect
import traceback


class Skipped(Exception):
    """What a test needs isn't installed; the message says what."""


def outcome(test):
    """None where all holds, else which steps don't, or what was raised."""
    try:
        wrong = [number for number, holds in enumerate(test(), 1) if not holds]
    except Skipped:
        raise
    except Exception:
        return traceback.format_exc(limit=4)
    return "not as wanted in steps %s" % wrong if wrong else None


def run_tests(name, names):
    """Runs the generator functions among the names and prints what came of them; the status."""
    tests = [it for it in names.values() if inspect.isgeneratorfunction(it) and it.__module__ == "__main__"]
    failed, reasons = 0, {}
    for test in tests:
        try:
            fault = outcome(test)
        except Skipped as reason:
            reasons.setdefault(str(reason), []).append(test.__name__)
            continue
        if fault:
            print("%s: %s" % (test.__name__, fault))
        failed += bool(fault)
    for reason, names in reasons.items():
        print("skipped, since %s: %s" % (reason, ", ".join(names)))
    skipped = sum(map(len, reasons.values()))
    print("%s: %d passed, %d failed%s" % (name, len(tests) - failed - skipped, failed,
                                          ", %d skipped" % skipped if skipped else ""))
    return 1 if failed else 0
