"""Why a tool cannot go on."""


class Failed(Exception):
    """A tool cannot go on, for this reason."""
