"""What facet_solver_tool says at the end of documents that it reads line by line."""

import json

# What it says of the lines that have a status, in the order of its words.
ENDS_OF_LINES = {1: "without a reading", 2: "with several", 4: "at fault", 5: "out of memory"}


def count_of(answers):
    """The status that follows from answers to lines, and the line that counts them."""
    statuses = [json.loads(it).get("status", 0) for it in answers]
    parts = [f"{statuses.count(0)} of {len(statuses)} documents read"]
    for status, end in ENDS_OF_LINES.items():
        if count := statuses.count(status):
            parts.append(f"{count} {end}")
    worst = next((it for it in (5, 4, 2, 1) if it in statuses), 0)
    return worst, ", ".join(parts).encode() + b"\n"
