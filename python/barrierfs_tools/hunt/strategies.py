"""Ways to choose a schedule, in rotation: rounds, ladders, priorities, and random ones. None of them finds all alone.

Each schedule is fixed by its seed. It ends where nothing may act, after so many events, or where a claim is broken."""
import random
from collections.abc import Callable

from barrierfs_tools.hunt.sessions import PLACED, Choice, Run

MOST = 3_000  # events of a schedule
LENGTH, CHANGES = 120, 3  # of priorities: within so many events they change so many times

Pick = Callable[[Run, str, int], int]
Schedule = Callable[[Run], None]
STACK = ["answer", "accept", "dispatch", "receive", "transfer", "persist"]
HOST_FIRST = ["call", "commit", "flush", *STACK]


def step(run: Run, choice: Choice, count: int, pick: Pick) -> bool:
    """Does an event, at a place that `pick` says where it has places."""
    word, thread = choice
    return run.do(word, pick(run, word, count) if word in PLACED else thread)


def until_quiet(run: Run, turn: Callable[[dict[Choice, int]], bool]) -> None:
    """Takes turns until nothing may act, or a turn ends the schedule."""
    for _ in range(MOST):
        choices = run.choices()
        if not choices or not turn(choices):
            return


def oldest(_: Run, __: str, ___: int) -> int:
    """The first place."""
    return 0


def newest(run: Run, word: str, count: int) -> int:
    """The newest request, or the last page."""
    if word == "write":
        return count - 1
    numbers = run.numbers(word)
    return max(range(count), key=numbers.__getitem__)


def any_place(rng: random.Random) -> Pick:
    """Any place, all alike."""
    return lambda _, __, count: rng.randrange(count)


def by_priority(rng: random.Random) -> Pick:
    """Of the requests at the places the one of the greatest priority, which is drawn once for each."""
    ranks: dict[int, float] = {}

    def pick(run: Run, word: str, count: int) -> int:
        if word == "write":
            return rng.randrange(count)
        numbers = run.numbers(word)
        for number in numbers:
            ranks.setdefault(number, rng.random())
        return max(range(count), key=lambda at: ranks[numbers[at]])

    return pick


def rounds(rng: random.Random, nth: int) -> Schedule:
    """Turn by turn, as `round` does it: the first schedule as it is, in the others each part has a number of steps a turn, and
    takes the oldest or the newest. The write-back takes part in every second one."""
    words = ["call", "commit", "flush", *STACK, *(["write"] if nth % 2 == 1 else [])]
    times = {word: 1 if nth == 0 else rng.choice([0, 1, 1, 2, 4]) for word in words}
    times["call"] = max(1, times["call"])
    picks = {word: oldest if nth == 0 else rng.choice([oldest, newest]) for word in PLACED}

    def part(run: Run, word: str) -> bool:
        if word == "call":
            return sum(run.do(word, thread) for thread in range(1, len(run.session.threads) + 1)) > 0
        count = len(run.names_of(word)) if word in PLACED else 1
        return count > 0 and run.do(word, picks[word](run, word, count) if word in PLACED else None)

    def play(run: Run) -> None:
        for _ in range(MOST // 10):
            acted = [part(run, word) for word in words for _ in range(times[word])]
            if not any(acted):
                return

    return play


def ladder(rng: random.Random, nth: int) -> Schedule:
    """The host first, as far as it comes; then the newest request first wherever there is a choice, or in every fourth schedule
    the oldest. In every second one the write-back sends a dirty page as soon as there is one, and in the others at the end or
    never. Later ones leave this order now and then."""
    early, pick = nth % 2 == 1, oldest if nth % 4 == 2 else newest
    loose = 0.0 if nth < 4 else rng.choice([0.05, 0.15, 0.3])
    order = [*(["write"] if early else []), *HOST_FIRST, *([] if early else ["write"])]

    def play(run: Run) -> None:
        def turn(choices: dict[Choice, int]) -> bool:
            if not early and nth % 4 == 0:
                choices.pop(("write", None), None)
            ranked = sorted(choices, key=lambda one: (order.index(one[0]), one[1] or 0))
            if ranked:
                choice = rng.choice(ranked) if rng.random() < loose else ranked[0]
                step(run, choice, choices[choice], pick)
            return bool(ranked)

        until_quiet(run, turn)

    return play


def priorities(rng: random.Random, _: int) -> Schedule:
    """Each part has a priority, which falls below all others at a few moments; each request has one, too."""

    def play(run: Run) -> None:
        priority: dict[Choice, float] = {}
        pick = by_priority(rng)
        moments = {rng.randrange(LENGTH) for _ in range(CHANGES)}
        lowest, done = 0, 0

        def turn(choices: dict[Choice, int]) -> bool:
            nonlocal lowest, done
            for one in choices:
                priority.setdefault(one, 1 + rng.random())
            choice = max(choices, key=priority.__getitem__)
            if step(run, choice, choices[choice], pick):
                if done in moments:
                    lowest -= 1
                    priority[choice] = lowest
                done += 1
            return True

        until_quiet(run, turn)

    return play


def drawn(rng: random.Random, nth: int) -> Schedule:
    """What is eligible is drawn: all alike, or each part with a speed of its own; places the first, the last or any."""
    is_uniform = nth % 3 == 0
    pick = any_place(rng) if is_uniform else rng.choice([any_place(rng), any_place(rng), oldest, newest])

    def play(run: Run) -> None:
        speed: dict[Choice, float] = {}

        def turn(choices: dict[Choice, int]) -> bool:
            for one in choices:
                speed.setdefault(one, 1.0 if is_uniform else 10 ** rng.uniform(-2.5, 0))
            ranked = list(choices)
            choice = rng.choices(ranked, [speed[one] for one in ranked])[0]
            step(run, choice, choices[choice], pick)
            return True

        until_quiet(run, turn)

    return play


ROTATION: dict[str, Callable[[random.Random, int], Schedule]] = {
    "rounds": rounds,
    "ladder": ladder,
    "priorities": priorities,
    "drawn": drawn,
}


def strategy_of(seed: int) -> str:
    """The strategy whose turn it is."""
    return list(ROTATION)[seed % len(ROTATION)]


def schedule(name: str, nth: int) -> Schedule:
    """The nth schedule of a strategy."""
    return ROTATION[name](random.Random(nth * 1_000_003 + len(name)), nth)
