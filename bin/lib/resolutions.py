"""How often a server asks the resolver, counted from outside: each resolution asks once for room for what it keeps of
each participant, and for a hundred participants nothing else asks for as many bytes."""
from lib import desks

PARTICIPANTS = 100
SIZE = PARTICIPANTS * 32


class Server(desks.Server):
    """A desk that serves a book of a hundred participants, and counts."""

    def __init__(self, folder, book, connections):
        self.path = f"{folder}/counted"
        counting = {"DESK_SIZE": str(SIZE), "DESK_COUNTED": self.path}
        super().__init__(book, connections, desks.library("sizes", folder), more=counting)
        before = self.count()
        self.asked(desks.request("POST", "/desk/resolve", desks.OPERATOR, "{}"))
        resolved = self.count()
        self.asked(desks.request("GET", "/desk/accounts", desks.OPERATOR))
        if (resolved - before, self.count()) != (1, resolved):
            self.kill()
            raise desks.Broken("a resolution does not ask for the room by which it is counted")

    def count(self):
        """Returns how many resolutions there were, and some requests of the opening."""
        return int.from_bytes(desks.content(self.path), "little")
