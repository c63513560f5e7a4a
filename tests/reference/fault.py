"""Why bytes aren't in their form."""


class Fault(Exception):
    """The name of the first fault, and its offset where it has one, or the key that it is about."""

    def __init__(self, name, place=None):
        super().__init__(name, place)
        self.name, self.place = name, place

    def __str__(self):
        return self.name if self.place is None else f"{self.name} {self.place}"
