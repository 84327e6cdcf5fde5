"""The brute-force model of the placement engine, and the stored cases that it answers.

    definitions     the model itself: the definitions of docs/FORMAT.md alone
    cases           the cases that are stored, letter by letter, and what they are made of
    checks          what the stored cases and their answers must show

Each part knows those above it in this list and nothing of those below it; `common` has the few
functions that all of them may use.
"""
