"""The picture of a placement, as a text that Graphviz draws."""

from model.definitions.description import READS, Datum


def edge_line(number, edge, placement):
    """An edge's line, of the clouds A of its writer, B of its datum and C of its reader."""
    e, d, s = number, edge.datum, edge.service
    if edge.command == READS:
        b, c = placement[d], placement[s]
        if b == c:
            return f"d{d}_{b} -> s{s}_{b};"
        return f"d{d}_{b} -> x{e} -> d{d}_{c}_e{e} -> s{s}_{c};"
    a, b = placement[s], placement[d]
    if a == b:
        return f"s{s}_{a} -> d{d}_{a};"
    return f"s{s}_{a} -> d{d}_{a}_e{e} -> x{e} -> d{d}_{b};"


def picture_of(described, placement):
    """The Graphviz text of a placement: its edges, then the blocks that have none."""
    lines = [edge_line(e, edge, placement) for e, edge in enumerate(described.edges)]
    for b, block in enumerate(described.blocks):
        if not any(b in (edge.service, edge.datum) for edge in described.edges):
            lines.append(f"{'d' if isinstance(block, Datum) else 's'}{b}_{placement[b]};")
    return "digraph p {\n" + "".join(f"  {line}\n" for line in lines) + "}\n"
