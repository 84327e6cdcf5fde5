"""The stored cases, and what they are made of.

    answers         the cases as the program callcases reads them, and their lines by the model
    making          a case, the commands of a description, the cases of each letter
    descriptions    descriptions that several calls are asked about
    chance          random descriptions, placements and lengths of buffers
    stored          all stored cases in their order

A call has its cases in a module of its name, and what it asks about in modules beside it:

    read, read_pairs; judge; transfers; masks; bill; standing
    picture         with Picture size; known_pictures
    census, draw    known_lists, merging, flows
    copies          for Transfers, Census and Draw
    labels          labels with marks, for all calls; label_calls, label_lists, label_moves
"""
