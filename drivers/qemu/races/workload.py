"""A guest's work for a seed: a shell script of operations that people perform on an interface, under traffic both ways.
The same seed and plan make the same script, from the commands in races/guest.sh."""

from __future__ import annotations

import random
from collections.abc import Callable, Sequence
from dataclasses import dataclass

# Microseconds between two operations: mostly 0, because a race needs two operations at the same time.
NAPS = (0, 0, 0, 0, 20_000, 100_000, 300_000)
MTUS = (1500, 1500, 2000, 2500, 3000, 9000)
FUNCTION_MTUS = (1500, 1400, 1000, 1492)
SLOTS = (64, 96, 128, 192, 256, 320, 512, 1024)


@dataclass(frozen=True)
class Plan:
    """The common settings of all seeds of a search. `own` is "alone" if the reporter's own script replaces the drawn
    operations, or "beside" if it runs concurrently with them, for at most `limit` seconds per round."""

    driver: str = "ixgbe"
    rounds: int = 4
    processors: int = 4
    own: str = ""
    limit: int = 60
    has_traffic: bool = True

    @property
    def is_function(self) -> bool:
        return self.driver == "ixgbevf"


Operation = Callable[[random.Random, Plan], str]


def rings(chance: random.Random, plan: Plan) -> str:
    return f"rings {chance.choice(SLOTS)} {chance.choice(SLOTS)}"


def channels(chance: random.Random, plan: Plan) -> str:
    return f"channels {chance.randint(1, plan.processors)}"


def mtu(chance: random.Random, plan: Plan) -> str:
    return f"mtu {chance.choice(FUNCTION_MTUS if plan.is_function else MTUS)}"


def burst(chance: random.Random, plan: Plan) -> str:
    return f"burst {chance.choice((50, 200, 400))} {chance.choice((60, 600, 1400))}"


def blink(chance: random.Random, plan: Plan) -> str:
    """Unplugs the cable for a moment."""
    return f"blink {chance.choice((20_000, 100_000, 300_000))}"


def says(words: str) -> Operation:
    def operation(chance: random.Random, plan: Plan) -> str:
        return words

    return operation


HOST: Sequence[Operation] = (
    rings, channels, mtu, burst, blink, says("again"), says("promiscuous"), says("spread"), says("filters"),
    says("down_up"), says("blink 300000"),
)  # fmt: skip
FUNCTION: Sequence[Operation] = (
    rings, mtu, burst, blink, says("promiscuous"), says("down_up"), says("host again"), says("host down_up"), rings,
    says("down_up"), says("blink 300000"),
)  # fmt: skip


def one_round(chance: random.Random, plan: Plan) -> list[str]:
    """Returns all operations in random order. Most are preceded by an operation on the cable, so that the driver is
    handling the link when they start."""
    operations = list(FUNCTION if plan.is_function else HOST)
    chance.shuffle(operations)
    lines: list[str] = []
    for operation in operations:
        lines.append(operation(chance, plan))
        nap = chance.choice(NAPS)
        if nap:
            lines.append(f"usleep {nap}")
    return lines


def with_own(number: int, seed: int, operations: list[str], plan: Plan) -> list[str]:
    """Returns a round's operations with the reporter's script, or the script alone."""
    words = f"{seed} {number} {plan.limit}"
    if plan.own == "alone":
        return [f"own {words}", "own_ends"]
    return [f"own {words}", *operations, "own_ends"]


def script(seed: int, plan: Plan) -> str:
    """Returns the script of a seed. It ends with a check that frames pass with every byte correct."""
    chance = random.Random(f"{plan.driver} {seed}")
    lines = [f"begin {seed}" if plan.has_traffic else f"begin {seed} quiet"]
    for number in range(1, plan.rounds + 1):
        operations = one_round(chance, plan)
        lines += [f"round {number}", *(with_own(number, seed, operations, plan) if plan.own else operations), "answers"]
    lines += ["settle", f"finish {seed}"]
    return "\n".join(lines) + "\n"
