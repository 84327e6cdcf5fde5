"""The placement engine by its definitions: a brute-force model, written from the rules alone.

It knows no algorithm: decode the bytes, check the rules, enumerate the candidates, test
each one, group the secure ones by option, keep the first of every group, sort.  It shares
nothing with what it is compared to.

    description     what the bytes declare, and refusals 1 to 8
    rules           labels, the rules of a workflow, the clouds that each block may use, standing
    placements      candidates, what is secure, transfers
    costs           the amounts of a placement
    options         which placements are one option, and the rows
    picture         the text of a placement's picture
    calls           the calls, made of all these
"""
