"""The stored cases of Picture (letter P) and of Picture size (letter B)."""

from model.cases.answers import MOST_ROOM, untouched, with_buffer
from model.cases.chance import (apart_workflow, assorted_candidates, bend, commands_of,
                                damage_bytes, dice_of, random_placement, random_workflow, rooms,
                                spoil)
from model.cases.descriptions import M, MIXED_EDGES, THIRTY_TWO_EDGES
from model.cases.known_pictures import ENOUGH, MOST_BYTES, barred, known_pictures
from model.cases.making import STOP, picture_case, placed, size_case
from model.definitions.picture import picture_of
from model.definitions.placements import verdict
from model.definitions.rules import allowed, count_candidates


def given_picture(each, room):
    """A case whose picture is known; a room too short for it is refused."""
    drawn = each.picture()
    needed = len(drawn)
    if room < needed:
        expected = with_buffer(f"refused 16 {needed}", untouched(room))
    else:
        expected = with_buffer(f"picture {needed}", drawn + untouched(room - needed))
    return picture_case(each.text, each.placement, room, expected)


def refused_picture(each, room):
    expected = with_buffer(f"refused {each.number} {each.place}", untouched(room))
    return picture_case(each.text, each.placement, room, expected)


def some_rooms(turn, needed):
    """As long as it must be, one byte short, and one of the other lengths, each in its turn."""
    others = (0, needed + 1, needed // 2, MOST_ROOM, 12, needed + 20, needed - 2, 1, ENOUGH)
    return needed, needed - 1, others[turn % len(others)]


def all_rooms(needed):
    """Every length within the first line, and those at which something may change."""
    return (*range(15), needed // 2, *range(needed - 3, needed + 4), 1023, 1024, 1025, MOST_BYTES,
            ENOUGH - 1, ENOUGH, MOST_ROOM - 1, MOST_ROOM)


def picture_by_hand():
    every = list(known_pictures())
    for turn, each in enumerate(every):
        for room in some_rooms(turn, len(each.picture())):
            yield given_picture(each, room)
    for each in (every[0], max(every, key=lambda one: len(one.picture()))):
        for room in all_rooms(len(each.picture())):
            yield given_picture(each, room)
    for turn, each in enumerate(barred()):
        for room in (0, (1, 12, 40, 200)[turn % 4]):
            yield refused_picture(each, room)
    for each in list(barred())[-3:]:
        yield refused_picture(each, MOST_ROOM)


FEW = (4, 16, 64, 256)          # candidates: of these, too, many placements are secure


def wide_workflow(dice):
    """A random workflow with blocks and edges of two digits."""
    made = random_workflow(dice)
    while len(made.blocks) < 11 or len(made.edges) < 11:
        made = random_workflow(dice)
    return made


def pinned_workflow(dice, make):
    """A random workflow with so many pins that its list is short."""
    made = make(dice)
    most = dice.choice(FEW)
    while count_candidates(made) > most:
        block = dice.below(len(made.blocks))
        made.pins[block] = dice.choice(allowed(made, block))
    return made


def picture_assorted(dice, made, most):
    """Secure placements with buffers around what they need, one that is not, maybe a bent one."""
    text = b"".join(commands_of(dice, made))
    found = assorted_candidates(dice, made, most)
    secure = [each for each in found if verdict(made, each) is None]
    for placement in secure:
        around = dice.shuffled(rooms(dice, len(picture_of(made, placement))))
        for room in around[:dice.between(1, 3)]:
            yield picture_case(text, placement, room)
    for placement in [each for each in found if each not in secure][:1]:
        yield picture_case(text, placement, dice.between(0, 60))
    if dice.one_in(3):
        yield picture_case(text, bend(dice, made, dice.choice(found)), dice.between(0, 400))


def picture_random(dice):
    for number in range(32):
        placement = placed(*(number >> bit & 1 for bit in range(4, -1, -1)))
        yield picture_case(M, placement, dice.between(60, 150))
    for make in (random_workflow, wide_workflow):
        for _ in range(32):
            yield from picture_assorted(dice, pinned_workflow(dice, make), most=2)
    for _ in range(15):
        yield from picture_assorted(dice, pinned_workflow(dice, apart_workflow), most=1)
    for _ in range(20):
        made = random_workflow(dice)
        spoil(dice, made)
        text = b"".join(commands_of(dice, made))
        yield picture_case(text, random_placement(dice, made), dice.between(0, 300))
    for _ in range(15):
        made = pinned_workflow(dice, random_workflow)
        text = damage_bytes(dice, b"".join(commands_of(dice, made)))
        yield picture_case(text, random_placement(dice, made), dice.between(0, 300))
    # Everything at level 0, so that any placement is secure and many edges cross.
    for text in (THIRTY_TWO_EDGES + STOP, MIXED_EDGES + STOP):
        for _ in range(6):
            placement = bytes(dice.below(2) for _ in range(16))
            for room in (MOST_ROOM // 2, ENOUGH):
                yield picture_case(text, placement, room)


def picture_cases(dice):
    yield from picture_by_hand()
    yield from picture_random(dice)


def size_cases(dice):
    """Of what the cases of Picture ask for: all that is known by hand, and half of the rest."""
    for each in known_pictures():
        yield size_case(each.text, each.placement, f"bytes {len(each.picture())}")
    for each in barred():
        yield size_case(each.text, each.placement, f"refused {each.number} {each.place}")
    asked = dict.fromkeys((case.text(), case.placement())
                          for case in picture_random(dice_of("P")))
    for text, placement in asked:
        if dice.one_in(2):
            yield size_case(text, placement)
