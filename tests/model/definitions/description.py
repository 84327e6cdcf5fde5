"""What the bytes of a description declare, and refusals 1 to 8.

Parts: the commands and what they declare; what can be wrong with a command; decoding.
"""

from typing import NamedTuple


# ---- The commands and what they declare ------------------------------------------------

END, CLOUD, DATUM, SERVICE, READS, WRITES, PIN, APART = range(8)

WIDTHS = {                      # of the operands of each command, in bytes
    END: (),
    CLOUD: (1, 2, 2, 2, 2),
    DATUM: (1, 2, 2),
    SERVICE: (1, 1, 4),
    READS: (1, 1),
    WRITES: (1, 1),
    PIN: (1, 1),
    APART: (1, 1),
}

MOST_CLOUDS, MOST_BLOCKS, MOST_EDGES, MOST_PAIRS, MOST_CANDIDATES = 8, 16, 32, 8, 65536
HIGHEST_LEVEL, HIGHEST_LABEL = 15, 63

LABELS = {CLOUD: 1, DATUM: 1, SERVICE: 2}                  # how many operands, the first ones
LEVEL_BITS, EMBARGO, SOURCE = 0x0F, 0x10, 0x20             # of a label: its level, and its marks


class Refused(Exception):
    """A refusal, with its number and its place."""

    def __init__(self, number, place):
        super().__init__(f"refused {number} {place}")
        self.number = number
        self.place = place


class Cloud(NamedTuple):
    label: int
    storage_rate: int
    in_rate: int
    out_rate: int
    cpu_rate: int


class Datum(NamedTuple):
    label: int
    size: int
    longevity: int


class Service(NamedTuple):
    location: int               # a label, as is the clearance
    clearance: int
    cpu_units: int


class Edge(NamedTuple):
    command: int                # READS or WRITES
    service: int
    datum: int


class Description:
    def __init__(self):
        self.clouds = []
        self.blocks = []        # each a Datum or a Service
        self.edges = []
        self.pins = {}          # block -> cloud
        self.apart = []         # pairs of data that no cloud may hold both of

    def data(self):
        return [b for b, block in enumerate(self.blocks) if isinstance(block, Datum)]

    def services(self):
        return [b for b, block in enumerate(self.blocks) if isinstance(block, Service)]

    def writer(self, datum):
        """The service that writes the datum, or None."""
        for edge in self.edges:
            if edge.command == WRITES and edge.datum == datum:
                return edge.service
        return None

    def readers(self, datum):
        """The services that read the datum, in edge order."""
        return [e.service for e in self.edges if e.command == READS and e.datum == datum]

    def add(self, command, operands):
        if command == CLOUD:
            self.clouds.append(Cloud(*operands))
        elif command == DATUM:
            self.blocks.append(Datum(*operands))
        elif command == SERVICE:
            self.blocks.append(Service(*operands))
        elif command in (READS, WRITES):
            self.edges.append(Edge(command, *operands))
        elif command == PIN:
            block, cloud = operands
            self.pins[block] = cloud
        elif command == APART:
            self.apart.append(tuple(operands))


# ---- What can be wrong with a command --------------------------------------------------

def one_too_many(described, command):
    if command == CLOUD:
        return len(described.clouds) == MOST_CLOUDS
    if command in (DATUM, SERVICE):
        return len(described.blocks) == MOST_BLOCKS
    if command in (READS, WRITES):
        return len(described.edges) == MOST_EDGES
    if command == APART:
        return len(described.apart) == MOST_PAIRS
    return False


def no_label(command, operands):
    return any(operand > HIGHEST_LABEL for operand in operands[:LABELS.get(command, 0)])


def misnamed(described, command, operands):
    if command in (READS, WRITES):
        service, datum = operands
        return service not in described.services() or datum not in described.data()
    if command == PIN:
        block, cloud = operands
        return block >= len(described.blocks) or cloud >= len(described.clouds)
    if command == APART:
        return any(name not in described.data() for name in operands)
    return False


def said_before(described, command, operands):
    if command in (READS, WRITES):
        repeated = Edge(command, *operands) in described.edges
        written = command == WRITES and described.writer(operands[1]) is not None
        return repeated or written
    if command == PIN:
        return operands[0] in described.pins
    if command == APART:                                   # a datum is not apart from itself
        one, other = operands
        return one == other or any(set(pair) == {one, other} for pair in described.apart)
    return False


def fault(described, command, operands):
    """The number of the first thing wrong with a complete command, or None."""
    if one_too_many(described, command):
        return 4
    if no_label(command, operands):
        return 5
    if misnamed(described, command, operands):
        return 6
    if said_before(described, command, operands):
        return 7
    return None


# ---- Decoding --------------------------------------------------------------------------

def split(operands, widths):
    """The operands as numbers, most significant byte first."""
    numbers = []
    for width in widths:
        numbers.append(int.from_bytes(operands[:width], "big"))
        operands = operands[width:]
    return numbers


def commands_in(text):
    """Each command with its place and its operands, up to the end; refuses with 1 to 3."""
    at = 0
    ended = False
    while not ended:
        if at == len(text):
            raise Refused(1, at)
        command = text[at]
        if command not in WIDTHS:
            raise Refused(2, at)
        after = at + 1 + sum(WIDTHS[command])
        if after > len(text):
            raise Refused(1, at)
        yield at, command, split(text[at + 1:after], WIDTHS[command])
        ended = command == END
        at = after
    if at < len(text):
        raise Refused(3, at)


def decode(text):
    """The description that the bytes spell; refuses with 1 to 8."""
    described = Description()
    for at, command, operands in commands_in(text):
        number = fault(described, command, operands)
        if number is not None:
            raise Refused(number, at)
        described.add(command, operands)
    if not described.clouds or not described.blocks:
        raise Refused(8, len(text))
    return described
