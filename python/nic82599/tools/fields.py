"""The fields of the registers, by the datasheet's names."""

from __future__ import annotations

from dataclasses import dataclass


@dataclass(frozen=True)
class Field:
    """Bits `low` to `high` of a register. `acts` is whether the bench acts on them. `form` is how a value is shown:
    `number`, `bits` (which of them are 1), `flag`, `hex`, or words by value, separated by `|`."""

    name: str
    high: int
    low: int
    acts: bool
    form: str

    @property
    def mask(self) -> int:
        return ((1 << (self.high - self.low + 1)) - 1) << self.low

    def of(self, word: int) -> int:
        """Returns the field's value in a register's value."""
        return (word & self.mask) >> self.low

    def shown(self, word: int) -> str:
        """Formats the field's value, given a register's value."""
        value = self.of(word)
        if self.form == "bits":
            return " ".join(str(bit) for bit in range(self.high - self.low + 1) if value >> bit & 1) or "none"
        if self.form in ("number", "flag"):
            return str(value)
        if self.form == "hex":
            return f"0x{value:x}"
        words = self.form.split("|")
        return f"{value} ({words[value]})" if value < len(words) and words[value] else str(value)


def _field(text: str) -> Field:
    """Parses a field: `NAME HIGH[:LOW] [form]`, with `*` in front if the bench acts on it."""
    acts, parts = text.startswith("*"), text.lstrip("*").split(maxsplit=2)
    high, _, low = parts[1].partition(":")
    form = parts[2] if len(parts) > 2 else "number" if low else "flag"
    return Field(parts[0], int(high), int(low or high), acts, form)


_VECTORS = "*INT_Alloc[0] 5:0, *INT_Alloc_val[0] 7, *INT_Alloc[1] 13:8, *INT_Alloc_val[1] 15, *INT_Alloc[2] 21:16, \
*INT_Alloc_val[2] 23, *INT_Alloc[3] 29:24, *INT_Alloc_val[3] 31"
_CAUSES = "*RTxQ 15:0 bits, Flow_Director 16, *Rx_Miss 17, *PCI_Exception 18, *MailBox 19, *LSC 20, LinkSec 21, \
MNG 22, GPI_SDP0 24, GPI_SDP1 25, GPI_SDP2 26, GPI_SDP3 27, ECC 28, TCP_Timer 30"
_FUNCTION = "*MSIX[0] 0, *MSIX[1] 1, *MSIX[2] 2"
_MAP = "*Q_MAP[0] 3:0, *Q_MAP[1] 11:8, *Q_MAP[2] 19:16, *Q_MAP[3] 27:24"
_POOLS = "*pools 31:0 bits"
_COUNT = "*count 31:0"

# The fields of each row. A row that isn't listed has one 32-bit field. `..` at the end means that the card's register
# has more fields than the row lists, so no bit counts as reserved.
_LINES = {
    "CTRL": "*Master_Disable 2, *LRST 3, *RST 26",
    "STATUS": "LAN_ID 3:2, LinkUp 7, Num_VFs 17:10, IOV_Active 18, *Master_Enable_Status 19",
    "CTRL_EXT": "*PFRSTD 14, NS_DIS 16, RO_DIS 17, Extended_VLAN 26, DRV_LOAD 28",
    "LEDCTL": "..",
    "PVFCTRL": "*RST 26",
    "PFMBICR": "*VFREQ 15:0 bits, *VFACK 31:16 bits",
    "PFMBIMR": "*VFIM 31:0 bits",
    "PFMAILBOX": "*Sts 0, *Ack 1, *VFU 2, *PFU 3, *RVFU 4",
    "PVFMAILBOX": "*Req 0, *Ack 1, *VFU 2, *PFU 3, *PFSTS 4, *PFACK 5, *RSTI 6, *RSTD 7",
    "PFMBMEM": "*word 31:0 hex",
    "EICR": _CAUSES,
    "EICS": _CAUSES,
    "EIAC": _CAUSES,
    "EIMS": _CAUSES,
    "EIMC": _CAUSES,
    "EIAM": _CAUSES,
    "EITR": "ITR_Interval 11:3, LLI_EN 15, LLI_Credit 20:16, ITR_Counter 27:21, CNT_WDIS 31",
    "GPIE": "SDP_GPIEN 3:0 bits, Multiple_MSIX 4, *OCD 5, EIMEN 6, LL_Interval 10:7, RSC_Delay 13:11, VT_Mode 15:14, "
    "*EIAME 30, PBA_support 31",
    "IVAR": _VECTORS,
    "IVAR_MISC": "*INT_Alloc[0] 5:0, *INT_Alloc_val[0] 7, *INT_Alloc[1] 13:8, *INT_Alloc_val[1] 15",
    "PVTEICR": _FUNCTION,
    "PVTEICS": _FUNCTION,
    "PVTEIMS": _FUNCTION,
    "PVTEIMC": _FUNCTION,
    "PVTEIAC": _FUNCTION,
    "PVTEIAM": _FUNCTION,
    "PVTIVAR": _VECTORS,
    "PVTIVAR_MISC": "*INT_Alloc[0] 5:0, *INT_Alloc_val[0] 7",
    "RDBAL": "*RDBAL 31:0 hex",
    "RDBAH": "*RDBAH 31:0 hex",
    "RDLEN": "*LEN 19:0",
    "RDH": "*RDH 15:0",
    "RDT": "*RDT 15:0",
    "TDBAL": "*TDBAL 31:0 hex",
    "TDBAH": "*TDBAH 31:0 hex",
    "TDLEN": "*LEN 19:0",
    "TDH": "*TDH 15:0",
    "TDT": "*TDT 15:0",
    "SRRCTL": "*BSIZEPACKET 4:0, BSIZEHEADER 13:8, RDMTS 24:22, *DESCTYPE 27:25 legacy|advanced, one buffer, "
    "*Drop_En 28",
    "RXDCTL": "*ENABLE 25, VME 30",
    "TXDCTL": "PTHRESH 6:0, HTHRESH 14:8, WTHRESH 22:16, *ENABLE 25, SWFLSH 26",
    "TDWBAL": "*Head_WB_En 0, *HeadWB_Low 31:2 hex",
    "TDWBAH": "*HeadWB_High 31:0 hex",
    "RQSMR": _MAP,
    "TQSM": _MAP,
    "RDRXCTL": "CRCStrip 1, DMAIDONE 3, RSCFRSTSIZE 21:17, RSCACKC 25, FCOE_WRFIX 26, ..",
    "RXCTRL": "*RXEN 0",
    "HLREG0": "TXCRCEN 0, RXCRCSTRP 1, *JUMBOEN 2, *TXPADEN 10, LPBK 15, MDCSPD 16, CONTMDC 17, PREPEND 23:20, "
    "RXLNGTHERREN 27, RXPADSTRIPEN 28, ..",
    "MAXFRS": "*MFS 31:16",
    "AUTOC": "FLU 0, Restart_AN 12, LMS 15:13, ..",
    "LINKS": "Link_Status 7, *LINK_SPEED 29:28 |100 Mb/s|1 Gb/s|10 Gb/s, *Link_Up 30, ..",
    "DMATXCTL": "*TE 0, GDV 3, VT 31:16 hex",
    "RXCSUM": "IPPCSE 12, *PCSD 13",
    "FCTRL": "SBP 1, *MPE 8, *UPE 9, *BAM 10",
    "MCSTCTRL": "*MO 1:0, *MFE 2",
    "VT_CTL": "*VT_Ena 0, *DEF_PL 12:7, *Dis_Def_Pool 29, Rpl_En 30",
    "VFRE": _POOLS,
    "VFTE": _POOLS,
    "MPSAR": _POOLS,
    "MTA": "*bits 31:0 bits",
    "RAL": "*RAL 31:0 hex",
    "RAH": "*RAH 15:0 hex, *AV 31",
    "MRQC": "*MRQE 3:0 one queue|RSS|||||||64 pools||32 pools and RSS|64 pools and RSS, *TcpIPv4 16, *IPv4 17, "
    "*IPv6 20, *TcpIPv6 21, *UdpIPv4 22, *UdpIPv6 23",
    "RETA": "*Entry[0] 3:0, *Entry[1] 11:8, *Entry[2] 19:16, *Entry[3] 27:24",
    "RSSRK": "*K[0] 7:0 hex, *K[1] 15:8 hex, *K[2] 23:16 hex, *K[3] 31:24 hex",
    "MTQC": "RT_Ena 0, VT_Ena 1, NUM_TC_OR_Q 3:2",
    "PSRTYPE": "PSR_type 15:0 bits, RQPL 31:29",
    "EEC": "EE_PRES 8, AUTO_RD 9, *EE_Size 14:11, ..",
    "EERD": "*START 0, *DONE 1, *ADDR 15:2, *DATA 31:16 hex",
    "GCR_EXT": "*VT_Mode 1:0 no pools|16 pools|32 pools|64 pools, ..",
    "QPRC": _COUNT,
    "QPRDC": _COUNT,
    "QPTC": _COUNT,
    "MPC": _COUNT,
    "GPRC": _COUNT,
    "GPTC": _COUNT,
    "RUC": _COUNT,
    "ROC": _COUNT,
    "VFGPRC": _COUNT,
    "VFGPTC": _COUNT,
}


def _split(line: str) -> list[str]:
    """Splits a line of fields. A comma inside a value's words doesn't separate fields."""
    parts: list[str] = []
    for part in line.split(", "):
        if part == ".." or len(words := part.split()) > 1 and words[1].replace(":", "").isdigit():
            parts.append(part)
        else:
            parts[-1] += ", " + part
    return parts


FIELDS: dict[str, list[Field]] = {
    name: [_field(part) for part in _split(line) if part != ".."] for name, line in _LINES.items()
}
OPEN = {name for name, line in _LINES.items() if line.endswith("..")}


def parts_of(name: str) -> list[Field]:
    """Returns a register's fields, except a field that covers the whole register, which needs no name."""
    return [field for field in FIELDS.get(name, []) if field.mask != 0xFFFF_FFFF]
