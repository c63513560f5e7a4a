"""Private keys of LMS and HSS (RFC 8554), of which all follows from an identifier and a seed (appendix A); sections are those of that page.

How the lower trees of a key of two levels follow from the upper one is said in docs/FORMATS.md, "Keys and signatures".
"""

from .hss import D_INTR, D_LEAF, D_MESG, D_PBLC, LMOTS, LMS, chain, digits, hashed, u32


class Tree:
    """One LMS tree with its private key."""

    def __init__(self, lms, ots, secret):
        self.lms, self.ots, self.identifier, self.seed = lms, ots, secret[:16], secret[16:]
        leaves = 1 << LMS[lms]
        self.nodes = [b""] * (2 * leaves)  # 5.3: T[r] at place r
        for q in range(leaves):
            self.nodes[leaves + q] = hashed(self.identifier, u32(leaves + q), D_LEAF, self.one_time_key(q))
        for r in range(leaves - 1, 0, -1):
            self.nodes[r] = hashed(self.identifier, u32(r), D_INTR, self.nodes[2 * r], self.nodes[2 * r + 1])

    def prefix(self, q, i):
        return self.identifier + u32(q) + i.to_bytes(2, "big")

    def secret_at(self, q, i):  # appendix A
        return hashed(self.prefix(q, i), b"\xff", self.seed)

    def one_time_key(self, q):  # 4.3
        w, p, _ = LMOTS[self.ots]
        ends = [chain(self.prefix(q, i), 0, (1 << w) - 1, self.secret_at(q, i)) for i in range(p)]
        return hashed(self.identifier, u32(q), D_PBLC, *ends)

    def node(self, place):
        return self.nodes[place]

    def public(self):  # 5.3
        return u32(self.lms) + u32(self.ots) + self.identifier + self.node(1)

    def signature(self, q, message):  # 4.5, 5.4.1
        randomizer = self.secret_at(q, 65533)
        goal = hashed(self.identifier, u32(q), D_MESG, randomizer, message)
        steps = digits(goal, *LMOTS[self.ots])
        links = [chain(self.prefix(q, i), 0, a, self.secret_at(q, i)) for i, a in enumerate(steps)]
        place, path = (1 << LMS[self.lms]) + q, []
        while place > 1:
            path.append(self.node(place ^ 1))
            place //= 2
        return u32(q) + u32(self.ots) + randomizer + b"".join(links) + u32(self.lms) + b"".join(path)


class OnePath(Tree):
    """A tree of which one one-time key is there: the hashes beside its path are made up, so no tree is too high."""

    def __init__(self, lms, ots, secret, q):
        self.lms, self.ots, self.identifier, self.seed, self.number = lms, ots, secret[:16], secret[16:], q
        place = (1 << LMS[lms]) + q
        self.nodes = {place: hashed(self.identifier, u32(place), D_LEAF, self.one_time_key(q))}
        while place > 1:
            pair = sorted([(place, self.nodes[place]), (place ^ 1, self.node(place ^ 1))])
            place //= 2
            self.nodes[place] = hashed(self.identifier, u32(place), D_INTR, *(text for _, text in pair))

    def node(self, place):
        return self.nodes.get(place) or hashed(self.seed, u32(place))


class Key:
    """A cosigner's private key, with the typecode of the height of each level."""

    def __init__(self, secret, heights, ots):
        self.heights, self.ots, self.lower, self.top = heights, ots, {}, Tree(heights[0], ots, secret)
        self.public = u32(len(heights)) + self.top.public()

    def lower_tree(self, number):
        if number not in self.lower:
            # The places above the chains and the randomizer of a one-time key.
            secret = self.top.secret_at(number, 65534)[:16] + self.top.secret_at(number, 65535)
            self.lower[number] = Tree(self.heights[1], self.ots, secret)
        return self.lower[number]

    def signature(self, number, message):
        """That of the one-time key with this number."""
        if len(self.heights) == 1:
            return u32(0) + self.top.signature(number, message)
        child, place = divmod(number, 1 << LMS[self.heights[1]])
        lower = self.lower_tree(child)
        above = u32(1) + self.top.signature(child, lower.public()) + lower.public()
        return above + lower.signature(place, message)
