"""The times that tools and documents state, in one place: minutes of processor time, with nothing built and nothing kept.

tools/measure-times measures them. tools/check-repository compares what the documents say.
"""

MINUTES = {
    "quick run": 1.6,
    "--test": 7.3,
    "--build": 60,
    "--library": 25,
    "gate": 90,
}


def stated(what):
    return f"{MINUTES[what]} minutes of processor time"
