"""Tests of scripts as tables. A row has a name, a text of bash, its status, and patterns of all that it writes."""
import os
import re
import subprocess

from shared import ran

SECONDS = 120


def try_rows(tally, rows, start, folder, **variables):
    """Tries each row, by a bash of its own in this folder that runs the text start first, with so many seconds of a
    processor for each process. What a row leaves out is the status 0, and nothing written."""
    surroundings = {it: value for it, value in os.environ.items() if it not in ("BASH_ENV", "CDPATH", "ENV", "LC_ALL")}
    for name, text, *expected in rows:
        status, answers, said = [*expected, *(0, "", "")[len(expected):]]
        words = ["bash", "-c", f"{start}\n{text}"]
        how = {"cwd": folder, "env": {**surroundings, **variables}, "text": True, "errors": "replace"}
        try:
            found = ran(words, seconds=SECONDS, **how)
        except subprocess.TimeoutExpired as error:
            tally.count(name, False, f"it goes on after {error.timeout} seconds")
            continue
        matched = [re.fullmatch(*it, re.S) for it in ((answers, found.stdout), (said, found.stderr))]
        is_well = found.returncode == status and all(matched)
        tally.count(name, is_well, f"status {found.returncode}, {found.stdout[-200:]!r}, {found.stderr[-200:]!r}")
