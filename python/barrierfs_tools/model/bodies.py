"""What a block of a medium holds in the second program: bytes of a file, a block of the journal, or a block of
metadata."""
from typing import Any, NamedTuple

# A block of metadata, by place: of a map 1 for each bit, of a zone of numbers a zone, of a directory a slot, and of the
# table an inode.
Metadata = dict[int, Any]
Slot = tuple[str, int]  # a name, and the number of its inode
Inode = tuple[
    bool, int, int, tuple[tuple[int, int], ...]
]  # whether it is a directory, its links, its size, and place and zone of what it maps


class JournalBlock(NamedTuple):
    """A block of the journal, other than a body."""

    kind: str  # super, descriptor, revoke or commit
    sequence: int
    start: int = 0  # of a superblock: where the log begins, 0 where it is empty
    listed: tuple[int, ...] = ()  # of a descriptor and a revoke block


Body = bytes | JournalBlock | Metadata


def super_of(sequence: int, start: int) -> JournalBlock:
    """A superblock of the journal, by the sequence with which the log begins and the place at which it does."""
    return JournalBlock("super", sequence, start)


def is_log_block(body: Body) -> bool:
    """Whether this is a descriptor, a revoke block or a commit block."""
    return isinstance(body, JournalBlock) and body.kind != "super"
