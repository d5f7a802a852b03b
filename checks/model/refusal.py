"""A refusal: its name, and the value that it holds, which may be another refusal."""


class Refusal(Exception):
    def __init__(self, name, held=None):
        super().__init__(name, held)
        self.name = name
        self.held = held

    def words(self):
        """As the console has it: the name, and behind it that of an inner refusal."""
        return f"{self.name} {self.held.words()}" if isinstance(self.held, Refusal) else self.name


def within(name, call, *arguments):
    """The call's answer; its refusal becomes the inner one of a refusal of this name."""
    try:
        return call(*arguments)
    except Refusal as inner:
        raise Refusal(name, inner) from None
