"""When the server is asked for pixels, and for which. Each read stands in the server's record: there are few of them.

A piece of the screen that changed a moment ago is *hot*. When something came to the server, the hot pieces are read at
once, and all pieces if the last look at all of them is a while ago; that while grows as long as such looks find nothing
beside the hot ones. When nothing comes any more there is one more such look, and after half a second one at all of
them, and then none until something comes.
"""

from dataclasses import dataclass, field
from enum import Enum
from typing import Dict, Iterable, List

HOT = 0.5  # seconds for which a piece that changed is hot
SETTLED = (0.06, 0.5)  # seconds after the last thing that came, at which more is read; the second time all
SHORT, LONG = 0.15, 1.0  # seconds between two looks at all of it, while something comes
SURE = 10.0  # seconds until all is read in any case
BLIND = 1.0  # the same, if it is not known what comes; and how long after a change more of it is looked for
DOUBT = 60.0  # seconds for which what looked like reads is no longer taken for them
NEVER = float("-inf")


class Came(Enum):
    """What came to the server by others: nothing, what has the size of reads, which change nothing, or more."""

    NOTHING = 0
    READS = 1
    MORE = 2


class Look(Enum):
    """What is read."""

    NOTHING = 0
    HOT = 1
    ALL = 2


@dataclass
class Rhythm:
    """What is read at which time. `knows` tells whether it is known what comes to the server."""

    knows: bool
    came: float = NEVER
    is_due: bool = True
    settled: int = len(SETTLED)
    whole: float = NEVER
    apart: float = SHORT
    doubted: float = NEVER
    has_doubt: bool = False
    hot: Dict[int, float] = field(default_factory=dict)

    def act(self, now: float, is_seen: bool) -> None:
        """Takes that we sent something, which itself may change the picture or not; others may change it in answer."""
        if is_seen or not self.knows:
            self.apart = SHORT
            self.stir(now)

    def stir(self, now: float) -> None:
        """Takes that something came which may change the picture."""
        self.came, self.settled, self.is_due = now, 0, True

    def look(self, now: float, came: Came) -> Look:
        """What is to be read now, after this has come since the last call."""
        if came is Came.MORE or came is Came.READS and now < self.doubted:
            self.stir(now)
        elif came is Came.READS:
            self.has_doubt = True
        is_stirred = self.is_due or not self.knows and now - self.came < BLIND
        if not is_stirred and self.settled < len(SETTLED) and now - self.came >= SETTLED[self.settled]:
            self.settled += 1
            if self.settled == len(SETTLED):
                return Look.ALL
            is_stirred = True
        self.is_due = False
        if is_stirred and now - self.whole < self.apart:
            return Look.HOT if self.hot_pieces(now) else Look.NOTHING
        return Look.ALL if is_stirred or now - self.whole >= self.patience() else Look.NOTHING

    def patience(self) -> float:
        """How long nothing is read, if nothing seems to come."""
        if not self.knows:
            return BLIND
        return LONG if self.has_doubt else SURE

    def hot_pieces(self, now: float) -> List[int]:
        """The pieces that changed a moment ago."""
        self.hot = {piece: until for piece, until in self.hot.items() if until > now}
        return sorted(self.hot)

    def found(self, now: float, look: Look, changed: Iterable[int]) -> None:
        """Takes what a look found: the pieces that have changed."""
        pieces = set(changed)
        is_new = not pieces <= self.hot.keys()
        if pieces and self.has_doubt and now - self.came > SETTLED[-1]:
            self.doubted = now + DOUBT
        if pieces and (look is Look.ALL or not self.knows):
            self.came, self.settled = now, 0
        if look is Look.ALL:
            self.whole, self.has_doubt = now, False
            self.apart = SHORT if is_new else min(2 * self.apart, LONG)
        self.hot.update((piece, now + HOT) for piece in pieces)

    def restart(self) -> None:
        """Forgets what was read: all of it is wanted."""
        self.whole, self.apart, self.is_due, self.hot = NEVER, SHORT, True, {}
