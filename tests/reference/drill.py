"""What a drill plays, which tests/drills.py says at its head, and its summary, by docs/COMMANDS.md, "drill"."""

ROUNDS = 16


class Draws:
    """The draws of a number, and what comes of its stops: how many there are, how many of the stopped calls do not answer Ok,
    after how many that add no signature the record is there, and how many signatures are made again beside one that is
    there."""

    def __init__(self, number):
        self.number, self.stops, self.unfinished, self.recovered, self.doubled = number, 0, 0, 0, 0

    def draw(self, below):
        self.number = (self.number * 6364136223846793005 + 1442695040888963407) % 2**64
        return (self.number >> 33) % below

    def call(self, signs):
        """A call that adds a record, which is a signature or isn't. Where it is stopped, the stop takes two draws: how many
        calls of its device pass, and which crash state is left. An append makes four: it writes the record, syncs, writes the
        commit byte, and syncs. So a draw of 4 below 5 lets it answer, and one of 3 leaves the commit byte to the crash state. By
        the rule of `MemDisk::crash` an even number leaves nothing of that byte, and an odd one that byte or another, not 0."""
        if self.draw(8) == 0:
            self.stops += 1
            passed, pick = self.draw(5), self.draw(65536)
            there = passed == 4 or passed == 3 and pick % 2 == 1
            self.unfinished += passed < 4
            self.recovered += there and not signs
            self.doubled += there and signs and passed < 4


def drawn(number):
    """How many entries, landmarks, signatures and stops a drill has, how many stopped calls that do not answer, and how many
    records of others than signings that are there after a stop."""
    draws, entries, landmarks = Draws(number), 1, 0
    for _ in range(ROUNDS):
        issued = 1 + draws.draw(3)
        entries += issued
        for _ in range(issued + 3):
            draws.call(signs=False)
        if draws.draw(3) == 0:
            landmarks += 1
            draws.call(signs=False)
        draws.draw(entries - 1)
        for _ in range(3):
            draws.call(signs=True)
    return entries, landmarks, 3 * ROUNDS + draws.doubled, draws.stops, draws.unfinished, draws.recovered


def summary(number):
    """The lines that the drill with this number prints."""
    entries, landmarks, signatures, stops, *_ = drawn(number)
    return [f"drill {number}", f"entries {entries}", f"landmarks {landmarks}", f"signatures {signatures}", f"stops {stops}",
            f"verified {ROUNDS}", f"stands {3 * ROUNDS}", f"light {landmarks}"]
