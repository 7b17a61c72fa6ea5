"""The numbers that C library calls return (statuses and faults), and the words for drop reasons, faults and steps, by
number. Generated from the header nic82599.h by `dev/generate statuses`.
"""

# What a call returns.
DONE = 0
STRAY = 1
IDLE = 2
DROPPED = 3
WROTE = 4
ADVANCED = 5
SENT = 6
FAULT = 7
MESSAGE = 8
FRAME = 9
NOT_LENT = 16
NO_QUEUE = 18
NO_GROUP = 19
OUT_OF_MEMORY = 32
NO_ROOM = 33
TOO_MANY_VFS = 34
BAD_FIFO = 35
BAD_BLOCKS = 36
NO_BLOCK = 37
MORE = 38
BAD_MEMORY = 39
CLOSED = 40
BROKEN = 41
IMAGE = 64
IMAGE_ODD_LENGTH = 65
IMAGE_BAD_SIZE = 66
IMAGE_SECTION_OUTSIDE = 67
IMAGE_BAD_CHECKSUM = 68
IMAGE_NOT_TRIPLES = 69
TEXT = 96
TEXT_SYNTAX = 97
TEXT_TWO_VALUES = 98
TEXT_RESERVED = 99
TEXT_DOES_NOT_FIT = 100
TEXT_POINTER_OUTSIDE = 101
TEXT_NOT_UTF8 = 102

# Why a slot can't be processed.
FAULT_OUTSIDE = 1
FAULT_NOT_LENT = 2
FAULT_TYPE = 3
FAULT_NO_BUFFER_SIZE = 4
FAULT_OFFLOAD = 5
FAULT_LEGACY = 6
FAULT_TOO_LONG = 7
FAULT_UNKNOWN_TYPE = 8

WHYS = (
    "",
    "link down",
    "off",
    "short",
    "long",
    "filter",
    "no pool",
    "pool off",
    "full",
    "queue off",
    "no slot",
)
FAULTS = (
    "",
    "outside",
    "not lent",
    "type",
    "no buffer size",
    "offload",
    "legacy",
    "too long",
    "unknown type",
)
STEPS = (
    "qstep rx",
    "qstep tx",
    "eestep",
    "tx",
    "rx",
    "int",
)
