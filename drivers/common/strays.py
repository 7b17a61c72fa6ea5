#!/usr/bin/env python3
"""Reports, by families, the registers outside the bench's table that a driver accessed.

    drivers/common/strays.py FILE

FILE has a line for each address, as c/bus/strays.c writes it: its function (pf, or vf and a number), the address, how
often it was read and written, the last value written, and the phases of the run that touched it, then perhaps a comment
with `#`. It prints the families that contain these addresses, by the datasheet's names: the physical function's first,
then those of virtual functions, with addresses as offsets. Status 1: an address is in no family; 3: the arguments or
the file are wrong.
"""

from __future__ import annotations

import sys
from pathlib import Path
from typing import NamedTuple

sys.dont_write_bytecode = True
sys.path.append(str(Path(__file__).resolve().parents[2] / "python"))
from nic82599.tools.tables import FUNCTION  # noqa: E402

# name, first address and step in hex, count
FAMILIES = """
VFLRE               00600 4 2
EITRSEL             00894
EICS_EX[1]          00A94
EIMS_EX[1]          00AA4
EIMC_EX[1]          00AB4
EIAM_EX[1]          00AD4
DCA_RXCTRL[0..15]   02200 4 16
DCA_RXCTRL[16..63]  0140C 40 48
DCA_RXCTRL[64..127] 0D00C 40 64
PVFGORC             01020 40 64
RSCCTL[0..63]       0102C 40 64
RSCCTL[64..127]     0D02C 40 64
QBRC_L              01034 40 16
QBRC_H              01038 40 16
FCOERPDC            0241C
FCLAST              02424
FCOEPRC             02428
FCOEDWRC            0242C
QDE                 02F04
RSCDBU              03028
FCTTV               03200 4 4
FCRTL               03220 4 8
PXON2OFFCNT         03240 4 8
FCRTH               03260 4 8
FCRTV               032A0
RXPBSIZE            03C00 4 8
FCCFG               03D00
PXONTXC             03F00 4 8
PXOFFTXC            03F20 4 8
LXONTXC             03F60
LXOFFTXC            03F68
MPC[1..7]           03FA4 4 7
CRCERRS             04000
ILLERRC             04004
ERRBC               04008
MSPDC               04010
MLFC                04034
MRFC                04038
RLEC                04040
PRC64 to PRC1522    0405C 4 6
BPRC                04078
MPRC                0407C
GORCL, GORCH        04088 4 2
GOTCL, GOTCH        04090 4 2
RFC                 040A8
RJC                 040B0
MNGPRC              040B4
MNGPDC              040B8
TORL, TORH          040C0 4 2
TPR                 040D0
TPT                 040D4
PTC64 to PTC1522    040D8 4 6
MPTC                040F0
BPTC                040F4
XEC                 04120
PXONRXCNT           04140 4 8
PXOFFRXCNT          04160 4 8
LXONRXCNT           041A4
LXOFFRXCNT          041A8
PCS1GLCTL           04208
PCS1GANA            04218
MSCA                0425C
MSRWD               04260
MFLCN               04294
AUTOC2              042A8
ANLP1               042B0
MMNGC               042D0
MACC                04330
RTTDCS              04900
RTTDQSEL            04904
TXPBTHRESH          04950 4 8
RTTBCNRC            04984
RFCTL               05008
VLNCTRL             05088
FCCRC               05118
RXMTRL              05120
ETQF                05128 4 8
TSYNCRXCTL          05188
RXSTMPH             051A4
WUFC                05808
WUS                 05810
DCA_TXCTRL          0600C 40 128
VMVIR               08000 4 64
PFVFSPOOF           08200 4 8
PFDTXGSWC           08220
PVFGOTC             08400 4 128
QBTC_L, QBTC_H      08700 4 32
SSVPC               08780
VMECM               08790 4 2
FCOEPTC             08784
FCOEDWTC            08788
TXDGPC              087A0
SECTXCTRL           08800
SECTXSTAT           08804
SECTXBUFFAF         08808
SECTXMINIFG         08810
IPSTXIDX, IPSTXSALT 08900 4 2
IPSTXKEY            08908 4 4
LSECTX..            08A3C 4 5
TSYNCTXCTL          08C00
TXSTMPH             08C08
SYSTIML, SYSTIMH    08C0C 4 2
TIMINCA             08C14
SECRXCTRL           08D00
SECRXSTAT           08D04
IPSRXIDX            08E00
IPSRXIPADDR         08E04 4 4
IPSRXSPI            08E14
IPSRXIPIDX          08E18
IPSRXKEY            08E1C 4 4
IPSRXSALT           08E2C
IPSRXMOD            08E30
LSECRX..            08F40 4 17
VFTA                0A000 4 128
MPSAR, one past     0AA00 4 2
TXPBSIZE            0CC00 4 8
MNGPTC              0CF90
PVFMPRC             0D01C 40 64
PVFGORC, high       0D020 40 64
ETQS                0EC00 4 8
FDIRCTRL            0EE00
FDIRHASH, FDIRCMD   0EE28 4 2
FDIRUSTAT           0EE50
FDIRFSTAT           0EE54
FDIRMATCH           0EE58
FDIRMISS            0EE5C
FDIRHKEY, FDIRSKEY  0EE68 4 2
VMOLR               0F000 4 64
VLVF                0F100 4 64
VLVFB               0F200 4 128
UTA                 0F400 4 128
SWSM                10140
FWSM                10148
FACTPS              10150
SW_FW_SYNC          10160
DCA_CTRL            11074
HICR                15F00
FWSTS               15F0C
"""


# virtual functions' registers, by offset
VIRTUAL_FAMILIES = """
VTEITR              00820 4 2
DCA_RXCTRL          0100C 40 8
VFGORC              01020
VFGORC, high        01024
VFMPRC              01034
DCA_TXCTRL          0200C 40 8
RSCCTL              0102C 40 8
VFGOTC              02020
VFGOTC, high        02024
"""


class Family(NamedTuple):
    """A family of registers: one name, `count` addresses at equal steps."""

    name: str
    first: int
    step: int
    count: int

    def addresses(self) -> range:
        return range(self.first, self.first + self.step * self.count, self.step)

    def where(self) -> str:
        return f"0x{self.first:05X}" + (f" + 0x{self.step:02X}*i, i below {self.count}" if self.count > 1 else "")


class Touched(NamedTuple):
    """The accesses to an address, or to an offset in the registers of several virtual functions together."""

    reads: int
    writes: int
    phases: tuple[str, ...]

    def plus(self, other: Touched) -> Touched:
        phases = dict.fromkeys(self.phases + other.phases)
        return Touched(self.reads + other.reads, self.writes + other.writes, tuple(phases))


def families(text: str) -> list[Family]:
    """Parses a table's families, in its order."""
    found = []
    for line in text.strip().splitlines():
        name, numbers = line[:20].strip(), line[20:].split()
        step, count = (int(numbers[1], 16), int(numbers[2])) if len(numbers) > 1 else (4, 1)
        found.append(Family(name, int(numbers[0], 16), step, count))
    return found


def of_functions() -> list[Family]:
    """Virtual functions' families. Before a virtual function's counters come the registers of queues that it doesn't
    have."""
    found = families(VIRTUAL_FAMILIES)
    rest = [Family(f"{it.row}, not its own", it.offset, it.stride, it.count(8)) for it in FUNCTION if it.of == "k"]
    return found[:-2] + rest + found[-2:]


def touched(path: Path) -> tuple[dict[int, Touched], dict[int, Touched]]:
    """Reads the file: accesses of the physical function, and of virtual functions."""
    sides: tuple[dict[int, Touched], dict[int, Touched]] = ({}, {})
    for line in path.read_text(encoding="ascii").splitlines():
        whose, at, reads, writes, _, *phases = line.partition("#")[0].split()
        side, address = sides[whose != "pf"], int(at, 16)
        side[address] = side.get(address, Touched(0, 0, ())).plus(Touched(int(reads), int(writes), tuple(phases)))
    return sides


def span(numbers: list[int]) -> str:
    low, high = min(numbers), max(numbers)
    return str(low) if low == high else f"{low} to {high}"


def tell(left: dict[int, Touched], table: list[Family]) -> int:
    """Prints the families that contain touched addresses, then the addresses in no family. Returns the number of
    addresses in no family."""
    total, rows = len(left), 0
    print(f"{'register':20} {'addresses':34} {'count':>5}  {'reads':7} {'writes':7} in")
    for family in table:
        found = [left.pop(address) for address in family.addresses() if address in left]
        if not found:
            continue
        rows += 1
        phases = list(dict.fromkeys(phase for it in found for phase in it.phases))
        print(f"{family.name:20} {family.where():34} {len(found):5}  {span([it.reads for it in found]):7} "
              f"{span([it.writes for it in found]):7} {' '.join(phases)}")
    for address, it in left.items():
        print(f"in no family: 0x{address:05X}, {it.reads} reads, {it.writes} writes, in {' '.join(it.phases)}")
    print(f"{total} addresses in {rows} families, {len(left)} in none")
    return len(left)


def main(words: list[str]) -> int:
    """Runs the command. Returns its status."""
    if len(words) != 1:
        print("drivers/common/strays.py FILE", file=sys.stderr)
        return 3
    try:
        physical, virtual = touched(Path(words[0]))
    except (OSError, ValueError) as error:
        print(f"drivers/common/strays.py: {words[0]}: {error}", file=sys.stderr)
        return 3
    print("for each address: how often it was read and written, and in which phases")
    unknown = tell(physical, families(FAMILIES))
    if virtual:
        print("for virtual functions, all together")
        unknown += tell(virtual, of_functions())
    return 1 if unknown else 0


if __name__ == "__main__":
    sys.exit(main(sys.argv[1:]))
