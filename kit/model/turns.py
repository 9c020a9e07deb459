"""02, Job 14: turns among senders."""

from sizes import LAST_U64

MOST_SENDERS = 8


class WrongSenderCount(Exception):
    """21: there are no turns."""


class Turns:
    """Who waits, and who was named last."""

    def __init__(self, senders):
        if not 1 <= senders <= MOST_SENDERS:
            raise WrongSenderCount
        self.senders = senders
        self.waiting = set()
        self.last = None

    def register(self, sender):
        """0, or the number of the refusal."""
        if sender >= self.senders:
            return 19
        if sender in self.waiting:
            return 20
        self.waiting.add(sender)
        return 0

    def turn(self, cursor):
        """The sender and the number for its batch, or None."""
        if not self.waiting:
            return None
        start = 0 if self.last is None else self.last + 1
        self.last = min(self.waiting, key=lambda sender: (sender - start) % self.senders)
        self.waiting.remove(self.last)
        return self.last, 1 if cursor is None else min(cursor + 1, LAST_U64)
