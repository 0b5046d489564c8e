"""The ports that a program may wait for, by address (GBATEK, "DS I/O Maps"), each with its address in nds-show's lines of a state."""
from typing import Dict, Tuple

PORTS: Dict[int, str] = {
    0x4000004: "DISPSTAT", 0x4000006: "VCOUNT", 0x4000060: "DISP3DCNT", 0x4000064: "DISPCAPCNT", 0x4000130: "KEYINPUT", 0x4000132: "KEYCNT",
    0x4000134: "RCNT", 0x4000136: "EXTKEYIN", 0x4000138: "RTC", 0x4000180: "IPCSYNC", 0x4000184: "IPCFIFOCNT", 0x40001A0: "AUXSPICNT",
    0x40001A2: "AUXSPIDATA", 0x40001A4: "ROMCTRL", 0x40001C0: "SPICNT", 0x40001C2: "SPIDATA", 0x4000204: "EXMEMCNT", 0x4000208: "IME",
    0x4000210: "IE", 0x4000214: "IF", 0x4000240: "VRAMSTAT", 0x4000241: "WRAMSTAT", 0x4000280: "DIVCNT", 0x40002A0: "DIV_RESULT",
    0x40002B0: "SQRTCNT", 0x40002B4: "SQRT_RESULT", 0x4000300: "POSTFLG", 0x4000304: "POWCNT1", 0x4000320: "RDLINES_COUNT", 0x4000500: "SOUNDCNT",
    0x4000600: "GXSTAT", 0x4000604: "RAM_COUNT", 0x4100000: "IPCFIFORECV", 0x4100010: "the card's data",
}  # fmt: skip
# Ports that stand several times, each so many bytes behind the one before: the first address, how many, the step, and the name.
ROWS: Tuple[Tuple[int, int, int, str], ...] = (
    (0x40000B0, 4, 12, "DMA{}SAD"), (0x40000B4, 4, 12, "DMA{}DAD"), (0x40000B8, 4, 12, "DMA{}CNT"), (0x4000100, 4, 4, "TM{}CNT_L"),
    (0x4000102, 4, 4, "TM{}CNT_H"), (0x4000400, 16, 16, "SOUND{}CNT"),
)  # fmt: skip
ALL: Dict[int, str] = {**PORTS, **{first + it * step: name.format(it) for first, count, step, name in ROWS for it in range(count)}}
FIRST, LAST = 0x0400_0000, 0x04FF_FFFF


def is_port(address: int) -> bool:
    return FIRST <= address <= LAST


def port_of(address: int) -> Tuple[int, str]:
    """Returns the port that a byte belongs to: its address and its name, or the address alone where it has none here."""
    for at in (address, address & ~1, address & ~3):
        if at in ALL:
            return at, ALL[at]
    return address, f"the port {address:07x}h"
