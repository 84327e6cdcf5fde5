"""Labels with marks: what the stored descriptions of Census and Draw must show."""

from model.cases.labels import FIELDS, marks, relabelled
from model.checks.labels import CLOUD_TRAITS, traits_of_clouds
from model.definitions.calls import census, read
from model.definitions.description import CLOUD, READS, WRITES, decode
from model.definitions.placements import candidates, first_broken
from model.definitions.rules import count_candidates, level

LABEL_TRAITS = ("options that marks take away", "options that need the marks of clouds",
                "rule 16 broken for want of marks", "rule 17 broken for want of marks",
                "no candidates for want of marks", "none secure for want of marks",
                "merged options of data with marks", *CLOUD_TRAITS)
FEW = 1000                      # candidates, also if there were no marks


def label_traits(text):
    """What a description may show of marks; the stored ones must show all of it between them."""
    plain = relabelled(text, level)
    shown = set()
    if plain != text and count_candidates(decode(plain)) <= FEW:
        shown = traits_beside(text, plain) | traits_of_clouds(text)
    return {trait: trait in shown for trait in LABEL_TRAITS}


def traits_beside(text, plain):
    """What changes if the labels, or those of the clouds, had no marks."""
    counts, without = census(text), census(plain)
    bare = relabelled(text, level, fields=FIELDS[CLOUD])
    described, bare_of_marks = read(text), read(plain)
    linked = [d for d in described.data()
              if described.writer(d) is not None and len(described.readers(d)) == 1]

    def broken(command):
        return any(first_broken(described, placement, command) is not None
                   and first_broken(bare_of_marks, placement, command) is None
                   for placement in candidates(described))

    return {trait for trait, holds in (
        ("options that marks take away", counts.options < without.options),
        ("options that need the marks of clouds", census(bare).options < counts.options),
        ("rule 16 broken for want of marks", broken(READS)),
        ("rule 17 broken for want of marks", broken(WRITES)),
        ("no candidates for want of marks", counts.candidates == 0 < without.candidates),
        ("none secure for want of marks",
         counts.secure == 0 < counts.candidates and without.secure > 0),
        ("merged options of data with marks", counts.secure > counts.options
         and all(marks(described.blocks[d].label) for d in linked))) if holds}
