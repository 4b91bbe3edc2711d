"""What the inputs of some designs are given, where random values let them do little.

A core wants instructions that it knows, and a memory that answers; a divider wants divisions. What is not named here is
random. An input is a text of digits, or is made anew for each cycle.
"""

from __future__ import annotations

import random
from typing import Callable, Dict, Union

Input = Union[str, Callable[[random.Random], str]]

# The fields funct7 and funct3 of the instructions of RV32I on two registers, but for shifts, which take long.
_BY_TWO = ((0, 0), (32, 0), (0, 2), (0, 3), (0, 4), (0, 6), (0, 7))


def _digits(*fields: int) -> str:
    """The digits of fields, each a width and a value."""
    pairs = zip(fields[::2], fields[1::2])
    return "".join(format(value, f"0{width}b") for width, value in pairs)


def seldom(chance: random.Random) -> str:
    """1 in one of four cycles."""
    return "0001"[chance.randrange(4)]


def often(chance: random.Random) -> str:
    """1 in three of four cycles."""
    return "0111"[chance.randrange(4)]


def division(chance: random.Random) -> str:
    """A division or a remainder of RV32M."""
    first, second, target = (chance.randrange(32) for _ in range(3))
    return _digits(7, 1, 5, second, 5, first, 3, chance.randrange(4, 8), 5, target, 7, 0x33)


def instruction(chance: random.Random) -> str:
    """An instruction of RV32I: on two registers, on a constant, a load, a store, or a branch forward."""
    kind = chance.choices(("two", "constant", "shift", "load", "store", "branch"), (70, 12, 2, 5, 5, 6))[0]
    target, first, second = (chance.randrange(1, 32) for _ in range(3))
    if kind == "two":
        high, low = chance.choice(_BY_TWO)
        return _digits(7, high, 5, second, 5, first, 3, low, 5, target, 7, 0x33)
    if kind == "constant":
        low = chance.choice((0, 2, 3, 4, 6, 7))
        return _digits(12, chance.getrandbits(12), 5, first, 3, low, 5, target, 7, 0x13)
    if kind == "shift":
        low = chance.choice((1, 5))
        return _digits(7, 0, 5, chance.randrange(1, 5), 5, first, 3, low, 5, target, 7, 0x13)
    if kind == "load":
        return _digits(12, 4 * chance.getrandbits(9), 5, 0, 3, 2, 5, target, 7, 0x03)
    if kind == "store":
        return _digits(7, chance.getrandbits(6), 5, second, 5, 0, 3, 2, 5, 4 * chance.getrandbits(3), 7, 0x23)
    low = chance.choice((0, 1, 4, 5, 6, 7))
    return _digits(7, 0, 5, second, 5, first, 3, low, 5, 4 * chance.randrange(1, 4), 7, 0x63)


_CORE: Dict[str, Input] = {"mem_rdata": instruction, "pcpi_wait": "0", "pcpi_ready": "0"}

STIMULI: Dict[str, Dict[str, Input]] = {
    "picorv32": {**_CORE, "mem_ready": seldom},
    "picorv32_top": {"mem_rdata": instruction, "mem_ready": seldom},
    "picorv32_axi": {
        "mem_axi_awready": often,
        "mem_axi_wready": often,
        "mem_axi_bvalid": often,
        "mem_axi_arready": often,
        "mem_axi_rvalid": seldom,
        "mem_axi_rdata": instruction,
        "pcpi_wait": "0",
        "pcpi_ready": "0",
    },
    "picorv32_wb": {"wbm_ack_i": seldom, "wbm_dat_i": instruction, "pcpi_wait": "0", "pcpi_ready": "0"},
    "picorv32_pcpi_div": {"pcpi_valid": "1", "pcpi_insn": division},
    "parallel_crc": {"enable": often, "init": often},
}
