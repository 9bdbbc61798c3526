"""The names of verdicts, of answers to takes, and of what a report counts (FORMATS.md, "Report", "Trace")."""
VERDICTS = "Malformed Foreign Misfit Future BadKey Late Repeat Full Kept Keys".split()
REPLIES = "Empty Over Given".split()
COUNTS = ["arrivals", *map(str.lower, VERDICTS), "given"]


def report_text(counts):
    """The lines of a report with these counts, of which the others are 0."""
    return "".join(f"{name} {counts.get(name, 0)}\n" for name in COUNTS)
