"""The numbers that a row doesn't give: the xid of a call is the next in its row, that of a reply is its call's; and the link of a
short form is the last of its connection.
"""


Called = tuple[int, int]  # a program and a procedure


class Numbering:
    """The calls of a row so far."""

    def __init__(self) -> None:
        self.last = 0  # the xid of the last call
        self.open: dict[
            str, list[int]
        ] = {}  # for each connection: the calls without a reply, each an xid and what it calls
        self.calls: dict[
            tuple[str, int], Called
        ] = {}  # for a connection and an xid: what was called
        self.texts: dict[tuple[str, int], str] = {}  # the same, in the words of the text
        self.requests: dict[
            str, int
        ] = {}  # for each connection: the xid of its last request for service
        self.links: dict[str, int] = {}  # for each connection: the link that was made last
        self.last_link = 0  # the greatest number of a link

    def opened(self, connection: str) -> None:
        """Forgets the calls that wait on the connection, which is new, or gone."""
        self.open.pop(connection, None)
        self.requests.pop(connection, None)
        self.links.pop(connection, None)

    def next_call(self) -> int:
        return (self.last + 1) % 2**32

    def call(self, connection: str, xid: int, called: Called, text: str = "") -> None:
        self.last = xid
        self.open.setdefault(connection, []).append(xid)
        self.calls[connection, xid] = called
        self.texts[connection, xid] = f"{connection} {text}"

    def next_reply(self, connection: str) -> int:
        waiting = self.open.get(connection)
        return waiting[0] if waiting else 0

    def reply(self, connection: str, xid: int) -> None:
        """Notes a reply. Calls that came before its own won't get any."""
        waiting = self.open.get(connection, [])
        if xid in waiting:
            del waiting[: waiting.index(xid) + 1]

    def linked(self, connection: str, lid: int) -> None:
        """Notes the link that a reply to create_link names; 0 if it names none."""
        if lid:
            self.links[connection] = lid
            self.last_link = max(self.last_link, lid)

    def called(self, connection: str, xid: int) -> tuple[int, int] | None:
        return self.calls.get((connection, xid))

    def next_request(self, connection: str) -> int:
        return self.requests.get(connection, 0) + 1

    def request(self, connection: str, xid: int) -> None:
        self.requests[connection] = xid
