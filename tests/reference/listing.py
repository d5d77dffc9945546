"""The rules of a listing, worked out by brute force: which folders are committed, and no later than a reading time.

Written from the rules alone, to be compared with what the library says.
"""

import re

from rules import Refusal, Refused

MOST_LINES, MOST_BYTES = 1_024, 255

NUMBER = rb"0|[1-9][0-9]*"
RECORD = re.compile(rb"(folder|wrt|con|ign)\t(__(%s)_(%s)_[A-Za-z0-9-]{1,64}_(?:1[6-9]|2[01]))" % (NUMBER, NUMBER))


def lines(listing):
    """Each line ends in one newline, which the last may lack."""
    found = listing.split(b"\n")
    return found[:-1] if found[-1] == b"" else found


def record(line):
    """Kind, name and t2 of a line, or nothing."""
    parts = RECORD.fullmatch(line)
    if parts is None or len(line) > MOST_BYTES or not int(parts[3]) <= int(parts[4]) < 2**63:
        return None
    return parts[1].decode(), parts[2].decode(), int(parts[4])


def records(listing):
    made = []
    for number, line in enumerate(lines(listing)):
        found = record(line)
        if number >= MOST_LINES or found is None:
            raise Refused(Refusal.BAD_LINE, number)
        if found in made:
            raise Refused(Refusal.REPEATED, number)
        made.append(found)
    return made


def committed(listing, time):
    """Line number and name of each folder that counts and is no later than the time."""
    made = records(listing)
    wrt, con, ign = ({name for kind, name, _ in made if kind == which} for which in ("wrt", "con", "ign"))
    return [
        (number, name)
        for number, (kind, name, last) in enumerate(made)
        if kind == "folder" and (name in wrt or (name in con and name not in ign)) and last <= time
    ]
