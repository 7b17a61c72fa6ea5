"""Inputs of dev/check_views: arguments that the tools refuse or accept, and generated scripts."""

from __future__ import annotations

FRAME = "0200000000010200000000020800450000280000000040060000420995bba18e64500aea06e6" + "00" * 22
# A 256-slot ring, of which only the half in block 0 is lent. The device owns 200 slots, and nothing is written to
# them.
LONG_RING = "lend 0\nw RDLEN[0] 4096\nw RXDCTL[0] 0x02000000\nqstep rx 0\nw RDT[0] 200\n"
# A receive queue whose ring is at 0, with a buffer's address poked into its first slot.
RECEIVES = """data frame {frame}
data slot {buffer:02x}{rest}
lend 0
lend 1
w RXCTRL 1
w FCTRL 0x200
w RDLEN[0] 128
w SRRCTL[0] 0x02000002
w RXDCTL[0] 0x02000000
qstep rx 0
poke 0 slot
w RDT[0] 2
arrive frame
rx
"""
SLOT, OVER = ({"frame": FRAME, "buffer": low, "rest": rest + "00" * 13} for low, rest in ((0, "0800"), (32, "0000")))
WAITS = """data zero {frame}
data two {other}
w GCR_EXT 3
w VT_CTL 1
w VFRE[0] 3
w MRQC 8
w RAL[0] 2
w RAH[0] 0x80000100
w MPSAR[0] 1
w RAL[1] 2
w RAH[1] 0x80000300
w MPSAR[2] 2
w RDLEN[0] 128
w RDLEN[2] 128
w RXCTRL 1
arrive zero
arrive two
arrive zero
arrive zero
arrive two
arrive zero
rx
vw 1 0 0x04000000
rx
w CTRL 0x04000000
w RXCTRL 1
w FCTRL 0x200
arrive zero
rx
rx
"""
# Scripts whose last recorded events depend on earlier ones: the number of virtual functions that each needs, and its
# text.
ENDS = {
    # A slot is written; its ring was set up earlier.
    "slot.nic": (0, RECEIVES.format(**SLOT) + "poke 16 slot\nr RDH[0]\n"),
    # A frame overwrites the ring, because of a slot that was poked earlier.
    "over.nic": (0, RECEIVES.format(**OVER) + "r RDH[0]\n"),
    # A frame that arrived earlier is received, and another one is waiting.
    "second.nic": (0, RECEIVES.format(**SLOT).replace("rx\n", "arrive frame\nrx\n")),
    # A counter that was assigned to a queue earlier counts, and a read clears it.
    "counted.nic": (0, "w RQSMR[0] 3\n" + RECEIVES.format(**SLOT) + "r QPRC[3]\nr QPRC[3]\n"),
    # Frames that arrived earlier are also waiting: one for a virtual function that resets itself, and one that is first
    # in line.
    "waits.nic": (2, WAITS.format(frame=FRAME, other=FRAME[:11] + "3" + FRAME[12:])),
    # A virtual function resets what it wrote earlier, and writes it again.
    "reset.nic": (1, "w GCR_EXT 3\nvw 0 0x108 7\nvw 0 0x120 0x8281\nvw 0 0 0x04000000\nvw 0 0x108 1\nvw 0 0x104 2\n"),
}
# Arguments, standard input, and what is expected: the status, and a part of the output.
USES = [
    (["nicview", "examples/fault.nic"], "", 2, "refused UnknownName 2"),
    (["nicview", "nowhere.nic"], "", 2, "can't be read"),
    (["nicview", "-", "--text"], "w RXCTRL 1\n", 0, "RXEN 1"),
    (["nicview", "examples/first.nic", "--svg", "9"], "", 2, "no step 9: the run has 2 steps"),
    (["nicview", "examples/first.nic", "--vfs", "64"], "", 3, "from 0 to 63"),
    (["nicview", "-", "--text"], "expect 1\n", 1, "failed 0"),
    (["nicview", "-"], "#" * 8_388_609, 2, "too long"),
    (["nicview", "-", "--text"], LONG_RING, 0, "  32 to 127 not read\n"),
    (["nicview", "-", "--text"], LONG_RING, 0, " 128 to 199 not lent\n"),
    (["nicview", "-", "--text"], "r 0x03c04\n", 0, "0x03c04 is RXPBSIZE[1], which the bench doesn't model: skip"),
    (["nicview", "-", "--text"], "r 0x10018\n", 0, "address 0x10018 isn't a register in docs/REGISTERS.md"),
    (["nicview", "-", "--text"], LONG_RING, 0, ", d and , not read; H"),
    (["nicview", "-", "--text"], LONG_RING, 0, f"  {'D' * 32}{'d' * 32}\n"),
    (["nicview", "-", "--text"], "w RDLEN[0] 128\nw RDT[0] 8\n", 0, "????????  T 8 (outside the ring)\n"),
    (["nicview", "-", "--text"], "w RDLEN[0] 128\nw RDH[0] 9\n", 0, "????????  H 9 (outside the ring)\n"),
    (["nicview", "-", "--svg", "1"], "w RDLEN[0] 128\nw RDT[0] 8\n", 0, "tail 8: no slot"),
    (["nicview", "dev/views/found.nic", "--text"], "", 0, "FAILED end, after step 16: a frame is in the ring"),
    (["nicview", "-", "--text"], "# CUT: long\n# FAILED fault: x\n", 0, "  the script ends before the failure: long\n"),
    (["nicview", "dev/views/loop.nic", "--text"], "", 1, "* acc has been 0x00000003 since step 35, `r GPRC`; 0x0000"),
    (["niclint", "examples/fault.nic"], "", 2, "no register NOSUCH"),
    (["niclint", "-"], "w RDTX[1] 1\n", 2, "near: RDT"),
    (["niclint", "-"], "w GPIE\n", 2, "w needs TARGET VALUE; VALUE is missing"),
    (["niclint", "-"], "arrive nope\ndata nap 00\n", 2, "no data nope"),
    (["niclint", "-"], "w RETA[32] 1\n", 2, "from [0] to [31]"),
    (["niclint", "-"], "jmp on\nonn:\n", 2, "no label on; near: onn"),
    (["niclint", "-"], "w GPIE\nrx\nw RDTX 1\ndata x 0\narrive x\n", 2, "-:1:7: refused Syntax: w needs TARGET"),
    (["niclint", "-"], "w GPIE\nrx\nw RDTX 1\ndata x 0\narrive x\n", 2, "^\n-:3:3: refused UnknownName: no"),
    (["niclint", "-"], "jmp on\nw RDTX 1\ndata x 0\narrive x\n", 2, "digits per byte, but the number of digits is 1"),
    (["niclint", "-"], "data x 0\npoke 0 x\narrive y\n", 2, "^\n-:3:8: refused UnknownLabel: no data y; near: x"),
    (["niclint", "-"], "a: rx\njmp a\nb:\nb:\n", 2, "^\n-:4:1: refused TwoLabels"),
    (["niclint", "-"], "rx\n" * 4_097 + "w RDTX 1\n", 2, "^\n-:4098:3: refused UnknownName: no register RDTX"),
    (["niclint", "-"], "nope\n" * 150, 2, "-: further lines may be refused; only the first 100 refusals are shown"),
    (["niclint", "-"], "#: nic vfs 2 fifo 64 blocks 256\nw x\nrx\nrz\n", 2, "-:4: this line of a recording"),
    (["niclint", "-"], "w 0x10140 1\n", 1, "0x10140 is SWSM, which the bench doesn't model"),
    (["niclint", "-"], "w 0x4c 1\n", 1, "0x0004c is TCPTIMER, which the bench doesn't model"),
    (["niclint", "-"], "w RDT[1] 1\nw RXDCTL[1] 0x02000000\n", 1, "RDT[1] is written before RXDCTL[1].ENABLE reads 1"),
    (["niclint", "-"], "w EIMS 0x100000\n", 1, "IVAR_MISC assigns no vector"),
    (["niclint", "-"], "#: nic vfs 2 fifo 64 blocks 256\nvr 1 0x0 # 0\n", 0, "1 instructions, no warnings"),
    (["niclint", "-", "--trace"], "#: nic vfs 2 fifo 1 blocks 256\nvr 2 0x0 # 0\n", 1, "stray"),
    (["niclint", "-"], "w GPIE 0x10000\n", 1, "bits 0x00010000 are reserved"),
    (["niclint", "-"], "w EIMC 0x7fffffff\nw EIMC 0xffffffff\nw EICR 0x7fffffff\n", 0, "no warnings"),
    (["niclint", "-"], "w RDRXCTL 0x0000000a\n", 0, "no warnings"),
    (["niclint", "-"], "w RDLEN[0] 0x40\n", 1, "RDLEN[0] doesn't keep bits 0x00000040"),
    (["niclint", "-", "--trace"], "vr 0 0x0108\n", 1, "step 0: vr 0 0x0108 (VTEIMS) -> stray 0xffffffff: "),
    (["nicview", "-", "--text"], "vr 0 0x1058 # mine\n", 0, "vr 0 0x1058    # VFRDT[1]; mine\n"),
    (["niclint", "-"], "w EIMC 0x00800000\n", 1, "bits 0x00800000 are reserved"),
    (["niclint", "examples/first.nic"], "", 0, "no warnings"),
    (["niclint", "-"], "w TXDCTL[0] 0x02000000\nw DMATXCTL 1\nqstep tx 0\n", 1, "before DMATXCTL.TE is 1"),
    (["niclint", "examples/tail.debug", "--trace"], "", 1, "head and tail meet"),
    (["niclint", "dev/views/loop.nic", "--trace"], "", 1, "step 36: expect 4 -> failed: acc has been 0x00000003"),
    (["nicdebug", "examples/tail.debug"], "break 10\nc\ns\nwhy\nfoo\nshow GPRC\nquit\n", 0, "GPRC  0x04074 0x00000001"),
    (["nicdebug", "examples/tail.debug"], "s # one\n\nquit\n", 0, "(nic) s # one\n    4  lend 0    -> done\nat 1 pc 1"),
    (["nicdebug", "examples/tail.debug"], "back\nq\n", 0, "(nic) back\nrefused AtStart: only 0 steps were taken\n"),
    (["nicdebug", "examples/receive.nic"], "c\npeek 0\npeek 0x800\n", 0, "1001000000000000030000003c000000"),
    (["nicdebug", "dev/views/eight.nic"], "continue fault\n", 0, "-> dropped no slot\nat 146 pc 146 acc 0x00000001"),
    (["nicdebug", "dev/views/eight.nic"], "c fault\nc fault\n", 0, "-> fault queue 5 outside\nat 153 pc 153 acc"),
    (["nicdebug", "dev/views/eight.nic"], "c fault\n\n\nwhy\n", 0, "acc has been 0x00000006 since step 156, `r QPRC["),
    (["nicdebug", "dev/views/eight.nic"], "break line 165\nc fault\nc fault\n", 0, "at 147 pc 147 acc 0x00000001"),
    (["nicdebug", "examples/queue.nic"], "c fault\n", 0, "no fault, dropped frame or failed expect follows\n"),
    (["nicdebug", "examples/queue.nic"], "help\n", 0, "continue fault     the same, but also stops after a fault"),
]

# The warnings of tools/niclint in the examples, each of which the example announces: an access where there is no
# register and a write to reserved bits, which show their effects, and a forgotten tail.
WARNED = {
    "aliases.nic": ["0x0000c isn't a register"],
    "masks.nic": ["RDT[127]: bits 0x12340000 are reserved"],
    "tail.debug": ["RDT[0] is never written"],
}


# A script with two warnings and a step that does nothing, and the steps that niclint warns about.
WARNS = "w EIMC 0x7fffffff\nw RXDCTL[0] 0x02000000\nr STATUS\nrx\nw GPIE 0x10000\nr STATUS\n"
WARNS_AT = {1: "no `qstep rx 0` follows", 4: "bits 0x00010000 are reserved"}


def sixteen_script() -> str:
    """Returns a script for sixteen queues, each with a receive and a transmit ring; one queue receives a frame, one
    sends, then everything is reset."""
    lines = [f"data frame {FRAME}", f"data rx 0080{'00' * 14}", "data tx 00800000000000003c00302b00000f00"]
    lines += [f"lend {block}" for block in range(17)]
    lines += ["w RXCTRL 1", "w FCTRL 0x200", "w DMATXCTL 0x81000001", "w IVAR[0] 0x8180", "w EIMS 3"]
    for q in range(16):
        slots = (8, 16, 32, 64)[q % 4]
        for side, base in (("R", 0x400 * q), ("T", 0x4000 + 0x400 * q)):
            lines += [f"w {side}DBAL[{q}] 0x{base:x}", f"w {side}DLEN[{q}] {16 * slots}"]
            lines += [f"w {side}XDCTL[{q}] 0x02000000", f"qstep {side.lower()}x {q}"]
            lines += [f"poke 0x{base + 16 * k:x} {side.lower()}x" for k in range(3)]
            lines.append(f"w {side}DT[{q}] {2 + q % 2}")
        lines.append(f"w SRRCTL[{q}] 0x02000002")
    lines += ["arrive frame", "rx", "int pf", "tx 0", "int pf", "tx 3", "rx", "collect", "w RDT[0] 99", "arrive frame"]
    return "\n".join(lines + ["rx", "tx 20", "w CTRL 0x04000000"]) + "\n"


def long_script() -> str:
    """Returns a 4,096-instruction script: rounds in which a frame is received and one is sent, with their
    interrupts."""
    lines = [f"data frame {FRAME}", "data tx 00100000000000003c00302b00000f00"]
    lines += [f"data rx{n} {(0x1000 + 0x800 * n).to_bytes(8, 'little').hex()}{'00' * 8}" for n in range(8)]
    body = [f"lend {block}" for block in range(12)] + ["w RXCTRL 1", "w FCTRL 0x200", "w DMATXCTL 0x81000001"]
    body += ["w RDLEN[0] 128", "w SRRCTL[0] 0x02000002", "w RXDCTL[0] 0x02000000", "qstep rx 0", "w TDBAL[0] 0x80"]
    body += ["w TDLEN[0] 128", "w TXDCTL[0] 0x02000000", "qstep tx 0", "w IVAR[0] 0x8685", "w EIMS 0x60", "w EIAC 0x60"]
    for k in range(4_096):
        slot, tail = k % 8, (k + 1) % 8
        body += [f"poke {16 * slot} rx{slot}", f"w RDT[0] {tail}", "arrive frame", "rx", "int pf"]
        body += [f"poke {128 + 16 * slot} tx", f"w TDT[0] {tail}", "tx 0", "int pf", "collect", "r GPRC"]
    return "\n".join(lines + body[:4_096]) + "\n"
