"""What ends a recording, or a call of it, in another way than by an answer."""


class Fault(Exception):
    """Why there is no record."""


class Cut(Exception):
    """The statement was sent, and its answer isn't waited for."""


class Gone(Fault):
    """The server has closed the connection."""

    def __init__(self, why="the server has closed the connection"):
        super().__init__(why)


class Unread(Exception):
    """The driver couldn't read the answer."""


class Refused(Exception):
    """The server refused the statement: a number and a text."""

    def __init__(self, number, text):
        super().__init__(number, text)
        self.number, self.text = number, text


class Unknown(Refused):
    """The server refused it for a reason that the rules don't have, so its outcome is left open."""


class RolledBack(Unknown):
    """The same, and the server has rolled the session's branch back, before this was known: in the rules that is what
    happens if it closes the connection."""


def one_line(text):
    return " ".join(str(text).split())
