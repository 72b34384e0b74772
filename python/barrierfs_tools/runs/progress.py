"""How far a tool is, said on a terminal alone."""
import sys


class Progress:
    """One line of standard error, which is written anew and is gone at the end."""

    def __init__(self, name: str) -> None:
        self.name, self.said = name, False
        self.shows = sys.stderr.isatty()

    def say(self, text: str) -> None:
        """Writes the line anew."""
        if self.shows:
            sys.stderr.write(f"\r\033[K{self.name}: {text}")
            sys.stderr.flush()
            self.said = True

    def end(self) -> None:
        """Takes the line away."""
        if self.said:
            sys.stderr.write("\r\033[K")
            sys.stderr.flush()
            self.said = False
