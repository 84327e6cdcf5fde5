"""The checks of the stored cases: are the answers right, and do they show what they should?

    stored          the whole check, and that of cases from before labels had marks
    examples        what is known by hand of the examples
    options         Census and Draw
    copies          the price of copies
    picture         Picture and Picture size
    masks           Masks
    bill            Bill
    standing        Standing, and what it says of the placements of all other calls
    labels          labels with marks, of every call; label_table, label_lists
"""
