#!/usr/bin/env python3
"""Says which must-fail edits do not fit their file: the text to replace has to stand there exactly once."""
import sys
from pathlib import Path


def fields(edit):
    return dict(line.split(": ", 1) for line in edit.read_text().splitlines() if ": " in line)


def main():
    faults = 0
    edits = sorted(Path("crates").glob("*/must-fail/*.edit"))
    for edit in edits:
        parts = fields(edit)
        text = (edit.parent.parent / parts["file"]).read_text()
        if text.count(parts["old"]) != 1 or parts["old"] == parts["new"]:
            print("%s: its text stands %d times in %s" % (edit, text.count(parts["old"]), parts["file"]))
            faults += 1
    print("%d must-fail edits, %d that do not fit" % (len(edits), faults))
    return 1 if faults else 0


sys.exit(main())
