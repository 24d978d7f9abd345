"""A server and its standby: what either says of the end of their joining, and by when it has to."""
import time

# Seconds within which the end of a joining is told.
LIMIT = 10
# Seconds for which a line is waited for that is late.
GRACE = 2


class Joining:
    """Of these two programs; `begun` is when a trouble came that ends a joining at once, if one did."""

    def __init__(self, server, standby):
        self.server, self.standby, self.begun = server, standby, None
        self.call, self.was_joined = server.joined_by()

    def ends(self):
        """Each of the two by its name, with what it said of the end."""
        return [("server", self.server, self.server.lost(self.call)), ("standby", self.standby, self.standby.told("standby ended"))]

    def over(self):
        """From which moment on it is known to be over; None where it may last, or never was."""
        moments = [self.begun, self.server.gone, self.standby.gone] + [line[0] for _, _, line in self.ends() if line]
        return min(filter(None, moments), default=None) if self.was_joined else None

    def limit(self, program):
        """Until when the program has to say so. None where it needn't, since it was gone before that."""
        over = self.over()
        if over is None:
            return None
        limit = max(over, program.freed) + LIMIT
        return limit if program.gone is None or program.gone > limit else None

    def is_late(self, program, line):
        limit = self.limit(program)
        return limit is not None and (not line or line[0] > limit)

    def is_awaited(self):
        """Whether one of the two may yet say so."""
        now = time.time()
        return any(not line and now < (self.limit(program) or 0) + GRACE for _, program, line in self.ends())
