"""A second model of the program, written from the definitions alone.

Each function here is one definition of docs/DEFINITIONS.md, under the name that it has there, and speaks of a whole history: what
was taken, released or given is looked up in the list of all that happened, and nothing is kept beside it. Python's own library is
all that it stands on. `frames`, `keys`, `setups`, `files`, `records`, `traces` and `verdicts` spell and read what docs/FORMATS.md
tells, also for the checks of .ci, for bench and for packaging. `commands` says what each command comes to; `streams`, `captures`,
`rolls` and `cases` make the cases that bench/differences tries, and `changes` wrong models.
"""
