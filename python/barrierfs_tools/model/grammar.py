"""Words and limits of scripts, replies, statuses and formats, by docs/FORMATS.md. Each stands here alone, and all
others take it from here; python/tests/test_grammar.py compares them with that page."""

# Limits, the least and the most where both count

PLACE = 4_294_967_295
TIMES = 1_000_000
MOST_EVENTS = 20_000_000
MOST_REQUESTS = 10_000
MOST_CALLS = 10_000
MOST_THREADS = 16
MOST_ATTEMPTS = 100
MOST_WORDS = 1_000
MOST_DIGITS = 2_048
MOST_BYTES = 4_194_304
MOST_IMAGE = 134_217_728
MOST_ROOM = 1_000  # of a store
BLOCKS, INODES, ZONES = (1, 4_096), (1, 65_535), (1, 65_535)
JOURNAL = (128, 16_384)
HEADER = {
    "depth": (1, 64),
    "queue": (1, 64),
    "flash": (3, 64),
    "fail": (1, 1_000_000_000),
    "cut": (0, 1_000_000_000),
    "seed": (0, 1_000_000_000),
    "limit": (1, 200_000),
}
LENGTH = (1, 65_536)
STEPS = (0, 1_000_000)
DEPTH, QUEUE, LIMIT = 32, 32, 20_000  # where a script does not say

# Words, each with what follows it: p a path, n a number, v two digits, h any even number of them, c a class

FIRST = {"device": "n", "blocks": "n", "volume": None}
CALLS = {
    "mkdir": "p",
    "rmdir": "p",
    "create": "p",
    "unlink": "p",
    "link": "pp",
    "rename": "pp",
    "truncate": "pn",
    "write": "pnnv",
    "bytes": "pnh",
    "read": "pnn",
    "list": "p",
    "stat": "p",
    "fsync": "p",
    "fdatasync": "p",
    "fbarrier": "p",
    "fdatabarrier": "p",
    "sync": "",
}
DEVICE_EVENTS = {"receive": "", "transfer": "n", "persist": "n"}
STACK_EVENTS = DEVICE_EVENTS | {"accept": "", "dispatch": "n"}
BLOCKS_EVENTS = STACK_EVENTS | {"submit": ""}
VOLUME_EVENTS = STACK_EVENTS | {
    "call": "n",
    "commit": "",
    "flush": "",
    "write": "n",
    "answer": "",
    "round": "n",
    "back": "n",
}
EVENTS = {"device": DEVICE_EVENTS, "blocks": BLOCKS_EVENTS, "volume": VOLUME_EVENTS}
PUTS = {"put": "nvc", "flush": ""}
DEVICE_HEADER = ["depth", "fail", "cut", "flash"]
HEADERS = {"device": DEVICE_HEADER, "blocks": [*DEVICE_HEADER, "queue", "elevator"], "volume": [*HEADER, "elevator"]}
STORE_HEADER = ["depth", "queue", "fail", "cut"]
WORDS = {*FIRST, *CALLS, *BLOCKS_EVENTS, *VOLUME_EVENTS, *PUTS, *HEADER, "elevator", "thread", "events", "recover"}
SPELLINGS = {
    "p": r"[!-~]+",
    "n": r"0|[1-9][0-9]*",
    "v": r"[0-9a-f]{2}",
    "h": r"([0-9A-Fa-f]{2})+",
    "c": r"free|ordered|barrier",
}

# What a round does behind the calls, and how many events that is

PARTS = ("commit", "flush", "accept", "dispatch 0", "receive", "transfer 0", "persist 0", "answer")

# Kinds of calls

READS = ("read", "list", "stat")
BYTE_CALLS = ("write", "bytes")
CHANGES = ("mkdir", "create", "rmdir", "unlink", "link", "rename", *BYTE_CALLS, "truncate")
MAKES = ("create", "mkdir")
BARRIER_CALLS = ("fbarrier", "fdatabarrier")
SYNC_CALLS = ("fsync", "fdatasync", "sync")
DATA_CALLS = ("fdatabarrier", "fdatasync")
FILE_CALLS = ("fbarrier", "fdatabarrier", "fsync", "fdatasync")
NOT_OF_TREE = ("down", "session full", "read-only")  # how a reply begins that no tree gives

# How a run ends, by what is said on standard error

STATUSES = {
    "bad words": 2,
    "script line": 3,
    "image": 4,
    "source fault": 5,
    "sink fault": 6,
    "input too long": 7,
    "no memory": 8,
    "no room": 9,
    "unsound": 10,
}

# The formats of volume and journal

BLOCK = 1024
LARGEST = 268_966_912  # bytes of a file
MOST_LINKS = 250
DIRECTORY_BLOCKS = 519  # of the largest directory
NAMES, LONG_NAMES = 14, 30  # bytes of the longest name: where a script does not say, and where it does
TABLE_INODES = 32  # inodes in a block of the table
MAP_BITS = 8192  # bits in a block of a map
DIRECT, NUMBERS = 7, 512  # zones in an inode, and in a zone of numbers
LISTED = {32: (122, 252), 64: (82, 126)}  # by the bits of a tag: bodies in a descriptor, and blocks in a revoke block
MAGICS = {0x137F: NAMES, 0x138F: LONG_NAMES}  # widths of names
JOURNAL_MAGIC = bytes.fromhex("c03b3998")


def tables_of(inodes: int, zones: int) -> int:
    """The blocks before the first zone of data: boot block, superblock, both maps and the table."""
    return 2 + -(-(inodes + 1) // MAP_BITS) + -(-(zones + 1) // MAP_BITS) + -(-inodes // TABLE_INODES)


def lines_of(text: str) -> list[str]:
    """The lines of a text; the last one may have no line feed."""
    lines = text.split("\n")
    return lines[:-1] if lines[-1] == "" else lines


def spoken(text: str) -> list[str]:
    """The lines of a script that are not skipped."""
    return [line for line in text.split("\n") if line and not line.startswith("#")]


def repeats(words: list[str]) -> tuple[list[str], int]:
    """The words of an event line without its ` x N`, and how often the event is done."""
    if len(words) > 2 and words[-2] == "x":
        return words[:-2], int(words[-1])
    return words, 1
