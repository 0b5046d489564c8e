"""States that are accepted, and states of which one field breaks its rule: what is changed of a cartridge that booted, and the first field that is wrong."""
from made import TOOLS  # noqa: F401 (it puts the tools on the path)

from nds_tools.hostile.boot_state import loop_cart
from nds_tools.state_fields import PARAMETERS
from nds_tools.states import NO_TICK

CART = loop_cart()
AT = 5000
# Where parts begin, summed up by hand from the table of docs/STATES.md.
OFFSETS = {
    "letter": 0, "version": 1, "SHA-256 of the cartridge": 2, "tick": 34, "steps of ARM9": 42, "steps of ARM7": 50, "events": 58, "turns": 66,
    "ARM9 r0": 74, "ARM9 r15": 194, "ARM9 cpsr": 198, "ARM9 halted": 222, "ARM9 due": 223, "ARM7 r0": 231, "ARM7 halted": 379, "ARM7 due": 380,
    "CP15 control": 388, "CP15 DTCM": 392, "CP15 ITCM": 396, "main": 400, "wram": 4194704, "wram7": 4227472, "itcm": 4293008, "dtcm": 4325776,
    "palette": 4342160, "vram": 4344208, "VRAMCNT_A": 5015952, "VRAMCNT_I": 5015960, "oam": 5015961, "WRAMCNT": 5018009, "ARM9 IME": 5018010,
    "ARM9 IE": 5018011, "ARM9 IF": 5018015, "ARM7 IME": 5018019, "ARM7 IF": 5018024, "ARM9 TM0CNT_L reload": 5018028, "ARM9 TM0CNT_H": 5018030,
    "ARM9 TM0 counter": 5018031, "ARM9 TM0 restart": 5018033, "ARM9 TM1CNT_L reload": 5018041, "ARM7 TM3 restart": 5018124, "DIVCNT mode": 5018132,
    "DIV_NUMER": 5018133, "divider due": 5018165, "SQRTCNT wide": 5018173, "SQRT_PARAM": 5018174, "SQRT_RESULT": 5018182, "square root due": 5018186,
    "ARM9 IPCSYNC sent": 5018194, "ARM9 IPCFIFORECV count": 5018202, "ARM7 IPCSYNC sent": 5018203, "KEYINPUT pressed": 5018212,
    "ARM9 KEYCNT": 5018214, "ARM7 KEYCNT": 5018216, "ARM9 DMA0SAD": 5018218, "ARM9 DMA0 running": 5018246, "ARM9 DMA0 trigger": 5018247,
    "ARM9 DMA1SAD": 5018255, "ARM9 DMA last unit": 5018366, "ARM9 DMA last waits": 5018374, "ARM7 DMA0SAD": 5018378, "ARM7 DMA3 running": 5018517,
    "DMA0FILL": 5018538, "VCOUNT": 5018554, "H-blank came": 5018556, "ARM9 DISPSTAT": 5018557, "A DISPCNT": 5018561, "A BG0CNT": 5018565,
    "A BG0HOFS": 5018573, "A BG2PA": 5018589, "A BG2X": 5018597, "A WIN0H": 5018621, "A MOSAIC": 5018633, "A DISPCAPCNT": 5018641,
    "A MASTER_BRIGHT": 5018645, "B DISPCNT": 5018647, "B MASTER_BRIGHT": 5018727, "POWCNT1": 5018729, "A BG2X running": 5018731,
    "B BG2X running": 5018747, "frame being drawn": 5018763, "last whole frame": 5215371, "MTX_MODE": 5411979, "projection matrix": 5411984,
    "stored position matrix 0": 5412240, "stored vector matrix 0": 5414224, "stored texture matrix": 5416272, "list overflow": 5416336,
    "COLOR": 5416341, "SHININESS": 5416386, "LIGHT_VECTOR 0 x": 5416514, "BEGIN_VTXS kind": 5416570, "vertex 3 back": 5416579,
    "POS_RESULT": 5416585, "VEC_RESULT x": 5416601, "box result": 5416607, "open vertices": 5416608, "swap tick": 5416616,
    "swap parameter": 5416624, "DISP3DCNT": 5416636, "GXSTAT selector": 5416638, "GXFIFO count": 5416639, "GXFIFO packed commands left": 5416641,
    "GXFIFO parameters left": 5416645, "geometry due": 5416646, "swap waits": 5416654, "ARM9 AUXSPICNT": 5416655, "ROMCTRL": 5416659,
    "card command": 5416663, "card starter": 5416671, "card words taken": 5416672, "card due": 5416676,
}  # fmt: skip
BYTES = 5416684
SOON = AT + 2**32
HALTED9, HALTED7 = {"ARM9 halted": 1, "ARM9 due": 0}, {"ARM7 halted": 1, "ARM7 due": 0}


def enabled(proc, number, control=0, left=1, **more):
    """An enabled channel that runs, with its target and source."""
    name = f"{proc} DMA{number}"
    # (ARM7's channels aren't due before the state's tick, as ARM9's may be)
    trigger = 1 if proc == "ARM9" else AT - 4
    found = {"CNT": 0x80000000 | control, " units left": left, " running": 1, " trigger": trigger, **{f" {key}": it for key, it in more.items()}}
    return {f"{name}{key}": it for key, it in found.items()}


def entries(*codes, **more):
    """Entries that wait for the geometry engine; it is due where the first command has all its entries."""
    found = {"GXFIFO count": len(codes), **{f"GXFIFO {at} command": it for at, it in enumerate(codes)}}
    if codes and len(codes) >= max(PARAMETERS.get(codes[0], 1), 1):
        found["geometry due"] = AT
    return {**found, **{key.replace("_", " "): it for key, it in more.items()}}


def busy(control=0, first=0xB7, starter=1, taken=0, due=AT):
    """A transfer of the card."""
    return {"ROMCTRL": control << 24, "card command": bytes([first]) + bytes(7), "card starter": starter, "card words taken": taken, "card due": due}


TRIANGLE = {"open vertices": 3, "open polygons": 1, "open polygon 0 corners": 3, "vertices of the run": 3}
WAITS = {"swap waits": 1, "SWAP_BUFFERS waiting parameter": 3}
# A register, the bits that it keeps, and one that it doesn't, where there is one.
MASKS = [
    ("ARM9 cpsr", 0xF80000FF, 0x100), ("ARM7 cpsr", 0xF00000FF, 0x08000000), ("ARM9 spsr_und", 0xF80000FF, 0x04000000), ("ARM7 spsr_fiq", 0xF00000FF, 0x08000000),
    ("CP15 control", 0xF7005, 8), ("CP15 DTCM", 0xFFFFF03E, 0x40), ("CP15 ITCM", 0x3E, 1), ("VRAMCNT_A", 0x9B, 4), ("VRAMCNT_C", 0x9F, 0x20),
    ("VRAMCNT_E", 0x9F, 0x40), ("VRAMCNT_H", 0x9B, 4), ("VRAMCNT_I", 0x9B, 4), ("ARM9 IE", 0x2F1F7F, 0x80), ("ARM7 IE", 0x0F1F7F, 0x200000),
    ("ARM9 IF", 0xFFDFFFFF, 0x200000), ("ARM7 IF", 0xFFDFFFFF, 0x200000), ("ARM9 IPCFIFOCNT", 0xC404, 8), ("ARM7 KEYCNT", 0xC3FF, 0x400),
    ("KEYINPUT pressed", 0xFFF, 0x1000), ("ARM9 DMA0SAD", 0x0FFFFFFF, 0x10000000), ("ARM7 DMA1DAD", 0x0FFFFFFF, 0x10000000),
    ("ARM9 DMA1CNT", 0x7FFFFFFF, None), ("ARM7 DMA2CNT", 0x77E03FFF, 0x4000), ("ARM7 DMA3CNT", 0x77E0FFFF, 0x10000), ("ARM7 DMA0CNT", 0x77E03FFF, 0x08000000),
    ("ARM9 DISPSTAT", 0xFFBF, 0x40), ("ARM7 DISPSTAT", 0xFFBF, 0x40), ("A DISPCNT", 0xFFFFFFFF, None), ("A BG0CNT", 0xFFFF, None), ("B BG3VOFS", 0x1FF, 0x200),
    ("A BG2PA", 0xFFFF, None), ("A BG2X", 0x0FFFFFFF, 0x10000000), ("B BG3Y", 0x0FFFFFFF, 0x80000000), ("A WIN1V", 0xFFFF, None), ("A WININ", 0x3F3F, 0x40),
    ("B WINOUT", 0x3F3F, 0x4000), ("A MOSAIC", 0xFFFF, None), ("A BLDCNT", 0x3FFF, 0x4000), ("A BLDALPHA", 0x1F1F, 0x20), ("A BLDY", 0x1F, 0x20),
    ("A DISPCAPCNT", 0xFFFFFFFF, None), ("B MASTER_BRIGHT", 0xC01F, 0x20), ("POWCNT1", 0xFFFF, None), ("COLOR", 0x7FFF, 0x8000), ("PLTT_BASE", 0x1FFF, 0x2000),
    ("diffuse colour", 0x7FFF, 0x8000), ("ambient colour", 0x7FFF, 0x8000), ("specular colour", 0x7FFF, 0x8000), ("emission colour", 0x7FFF, 0x8000),
    ("LIGHT_COLOR 3", 0x7FFF, 0x8000), ("POLYGON_ATTR in force", 0xFFFFFFFF, None), ("VIEWPORT", 0xFFFFFFFF, None), ("DISP3DCNT", 0x5FFF, 0x2000),
    ("ARM9 AUXSPICNT", 0xE000, 0x1000), ("ARM7 AUXSPICNT", 0xE000, 1), ("ROMCTRL", 0x7F7FFFFF, 0x800000), ("ROMCTRL", 0, 0x80000000),
]  # fmt: skip
# A field, and the greatest number that it may have.
RANGES = [
    ("WRAMCNT", 3), ("ARM9 IME", 1), ("ARM7 IME", 1), ("DIVCNT mode", 3), ("SQRTCNT wide", 1), ("ARM7 IPCSYNC sent", 15), ("ARM9 IPCSYNC enable", 1), ("MTX_MODE", 3),
    ("position level", 31), ("projection level", 1), ("texture level", 1), ("stack error", 1), ("list overflow", 1), ("SHININESS on", 1), ("BEGIN_VTXS kind", 3),
    ("box result", 1), ("GXSTAT selector", 3), ("vertices of the run", AT),
]  # fmt: skip
# A change, and the field that it breaks: None where the state is accepted, a name, or a name and the number of one of its numbers.
ROWS = [
    # head
    ({"letter": 0x46}, "letter"), ({"version": 2}, "version"), ({"events": 24 * AT}, None), ({"events": 24 * AT + 1}, "events"), ({"turns": 1}, "turns"),
    ({"steps of ARM9": 24 * AT, "steps of ARM7": 1}, "events"), ({"steps of ARM9": 2, "steps of ARM7": 3, "events": 4, "turns": 9}, None),
    ({"steps of ARM9": 2, "steps of ARM7": 3, "events": 4, "turns": 10}, "turns"), ({"steps of ARM9": NO_TICK, "events": 1}, "events"),
    # ticks of processors
    ({"ARM9 due": SOON}, None), ({"ARM9 due": SOON + 1}, "ARM9 due"), ({"ARM7 due": SOON + 1}, "ARM7 due"), ({"ARM9 due": NO_TICK}, "ARM9 due"),
    ({"ARM9 halted": 2}, "ARM9 halted"), ({"ARM9 halted": 1}, "ARM9 due"), (HALTED9, None), (HALTED7, None), ({"ARM7 halted": 1, "ARM7 due": AT}, "ARM7 due"),
    ({"ARM9 due": AT - 1}, "GXFIFO count"), ({"ARM7 due": AT - 1}, "ARM7 DMA3 running"), ({"ARM9 due": 0, **enabled("ARM9", 2)}, None),
    ({"ARM7 due": 0, **enabled("ARM7", 0)}, None), ({"ARM7 due": 0, **enabled("ARM7", 3)}, None), ({"ARM7 due": 0, **enabled("ARM9", 3)}, "ARM7 DMA3 running"),
    ({"ARM9 due": 0, **entries(*[0x15] * 261)}, None), ({"ARM9 due": 0, **entries(*[0x15] * 260)}, "GXFIFO count"), ({"ARM9 due": 0, **enabled("ARM7", 1)}, "GXFIFO count"),
    # halted processors
    ({**HALTED7, "ARM7 IE": 3, "ARM7 IF": 4}, None), ({**HALTED7, "ARM7 IE": 3, "ARM7 IF": 6}, "ARM7 IF"), ({"ARM7 IE": 3, "ARM7 IF": 6}, None),
    ({**HALTED9, "ARM9 IE": 3, "ARM9 IF": 4}, None), ({**HALTED9, "ARM9 IE": 3, "ARM9 IF": 6}, "GXFIFO count"), ({"ARM9 IE": 3, "ARM9 IF": 6, "ARM9 IME": 1}, None),
    ({**HALTED9, "ARM9 IE": 0x200000, "GXSTAT selector": 1}, "GXFIFO count"), ({**HALTED9, "ARM9 IE": 0x200000, "GXSTAT selector": 2}, "GXFIFO count"),
    ({**HALTED9, "ARM9 IE": 0x200000, "GXSTAT selector": 3}, None), ({**HALTED9, "ARM9 IE": 0x200000, "GXSTAT selector": 1, **entries(*[0x15] * 132)}, None),
    ({**HALTED9, "ARM9 IE": 0x200000, "GXSTAT selector": 1, **entries(*[0x15] * 131)}, "GXFIFO count"), ({"ARM9 IE": 0x200000, "GXSTAT selector": 1}, None),
    ({**HALTED9, "ARM9 IE": 0x200000, "GXSTAT selector": 2, **entries(*[0x15] * 4)}, "GXFIFO count"),
    ({**HALTED9, "ARM9 IE": 0x200000, "GXSTAT selector": 2, **entries(*[0x15] * 5)}, None),
    # timers: control 80h counts bus clocks, so that 2,499 counts from tick 0 on are due at 4,998
    ({"ARM9 TM0 restart": 1}, "ARM9 TM0 restart"), ({"ARM9 TM0CNT_H": 0x80, "ARM9 TM0 restart": AT}, None), ({"ARM9 TM0CNT_H": 0x80, "ARM9 TM0 restart": AT + 1}, "ARM9 TM0 restart"),
    ({"ARM9 TM0CNT_H": 0x80, "ARM9 TM0 counter": 65536 - 2500}, None), ({"ARM9 TM0CNT_H": 0x80, "ARM9 TM0 counter": 65536 - 2499}, "ARM9 TM0 restart"),
    ({"ARM7 TM3CNT_H": 0x84, "ARM7 TM3 restart": 1}, "ARM7 TM3 restart"), ({"ARM7 TM3CNT_H": 0x84, "ARM7 TM3 counter": 65535}, None),
    ({"ARM9 TM0CNT_H": 0x84, "ARM9 TM0 restart": 1}, None), ({"ARM9 TM2CNT_H": 0x83, "ARM9 TM2 counter": 65534}, "ARM9 TM2 restart"), ({"ARM9 TM2CNT_H": 0x20}, "ARM9 TM2CNT_H"),
    ({"ARM9 TM2CNT_H": 0x83, "ARM9 TM2 counter": 65533}, None), ({"ARM9 TM1CNT_H": 0x81, "ARM9 TM1 counter": 65536 - 39}, "ARM9 TM1 restart"),
    ({"ARM9 TM1CNT_H": 0x81, "ARM9 TM1 counter": 65536 - 40}, None), ({"ARM9 TM1CNT_H": 0x82, "ARM9 TM1 counter": 65536 - 9}, "ARM9 TM1 restart"),
    # due ticks
    *[row for name in ("divider due", "square root due") for row in (({name: AT}, None), ({name: SOON}, None), ({name: AT - 1}, name), ({name: SOON + 1}, name))],
    # FIFOs between the processors
    ({"ARM9 IPCFIFORECV count": 16}, None), ({"ARM9 IPCFIFORECV count": 17}, "ARM9 IPCFIFORECV count"), ({"ARM7 IPCFIFORECV count": 2, "ARM7 IPCFIFORECV word 1": 2**32 - 1}, None),
    # DMA
    (enabled("ARM9", 0, left=0x200000, source=1, target=2), None), (enabled("ARM9", 0, left=0x200001), "ARM9 DMA0 units left"), (enabled("ARM9", 0, left=0), "ARM9 DMA0 units left"),
    (enabled("ARM7", 2, left=0x4000), None), (enabled("ARM7", 2, left=0x4001), "ARM7 DMA2 units left"), (enabled("ARM7", 3, left=0x10000), None), (enabled("ARM7", 3, left=0x10001), "ARM7 DMA3 units left"),
    ({"ARM9 DMA1 source": 1}, "ARM9 DMA1 source"), ({"ARM9 DMA1 target": 1}, "ARM9 DMA1 target"), ({"ARM9 DMA1 units left": 1}, "ARM9 DMA1 units left"), ({"ARM9 DMA1 burst left": 1}, "ARM9 DMA1 running"),
    ({"ARM9 DMA1 running": 1}, "ARM9 DMA1 running"), ({"ARM9 DMA1 burst left": 1, "ARM9 DMA1 running": 1}, "ARM9 DMA1 running"), ({"ARM9 DMA1 trigger": 1}, "ARM9 DMA1 trigger"),
    (enabled("ARM9", 3, left=200, **{"burst left": 112}), None), (enabled("ARM9", 3, left=200, **{"burst left": 113}), "ARM9 DMA3 burst left"), (enabled("ARM9", 3, left=5, **{"burst left": 6}), "ARM9 DMA3 burst left"),
    ({**enabled("ARM9", 3, left=200), "ARM9 DMA3 trigger": AT}, None), ({**enabled("ARM9", 3, left=200), "ARM9 DMA3 trigger": AT + 1}, "ARM9 DMA3 trigger"),
    ({**enabled("ARM9", 3), "ARM9 DMA3 running": 2}, "ARM9 DMA3 running"), ({**enabled("ARM9", 3), "ARM9 DMA3 running": 0}, "ARM9 DMA3 trigger"), ({**enabled("ARM9", 3), "ARM9 DMA3 running": 0, "ARM9 DMA3 trigger": 0}, None),
    ({**enabled("ARM9", 3, left=9, **{"burst left": 1}), "ARM9 DMA3 running": 0, "ARM9 DMA3 trigger": 0}, "ARM9 DMA3 running"),
    ({"ARM9 DMA last unit": AT, "ARM9 DMA last waits": 16}, None), ({"ARM9 DMA last unit": AT + 1}, "ARM9 DMA last unit"), ({"ARM7 DMA last unit": 1, "ARM7 DMA last waits": 17}, "ARM7 DMA last waits"),
    ({"ARM7 DMA last waits": 1}, "ARM7 DMA last waits"),
    # ARM7's channel that is due: 4 ticks after its trigger, and 4 and the waits after the last unit
    ({**enabled("ARM7", 1), "ARM7 DMA1 trigger": AT - 5}, "ARM7 DMA last waits"), ({**enabled("ARM9", 1), "ARM9 DMA1 trigger": AT - 5}, None),
    ({**enabled("ARM7", 1), "ARM7 DMA1 trigger": 1, "ARM7 DMA last unit": AT - 10, "ARM7 DMA last waits": 6}, None),
    ({**enabled("ARM7", 1), "ARM7 DMA1 trigger": 1, "ARM7 DMA last unit": AT - 10, "ARM7 DMA last waits": 5}, "ARM7 DMA last waits"),
    ({**enabled("ARM7", 1), **enabled("ARM7", 2), "ARM7 DMA2 trigger": 1}, None), ({**enabled("ARM7", 1), **enabled("ARM7", 2), "ARM7 DMA1 trigger": 1}, "ARM7 DMA last waits"),
    ({**enabled("ARM7", 0), "ARM7 DMA last unit": 1}, None),
    # a channel that waits for the geometry FIFO
    ({**enabled("ARM9", 1, 7 << 27), "ARM9 DMA1 running": 0, "ARM9 DMA1 trigger": 0}, "GXFIFO count"), (enabled("ARM9", 1, 7 << 27), None),
    ({**enabled("ARM9", 1, 7 << 27), "ARM9 DMA1 running": 0, "ARM9 DMA1 trigger": 0, **entries(*[0x15] * 132)}, None),
    ({**enabled("ARM9", 1, 7 << 27), "ARM9 DMA1 running": 0, "ARM9 DMA1 trigger": 0, **entries(*[0x15] * 131)}, "GXFIFO count"),
    ({"ARM9 DMA1CNT": 7 << 27}, None),
    # display
    ({"VCOUNT": 0}, "VCOUNT"), ({"VCOUNT": 2}, "VCOUNT"), ({"H-blank came": 1}, "H-blank came"), ({"H-blank came": 2}, "H-blank came"), ({"A BG2X running": -(2**31)}, None),
    ({"frame being drawn": (0,) * 98303 + (0x8000,)}, ("frame being drawn", 98303)), ({"last whole frame": (0, 0x8000) + (0,) * 98300 + (0xFFFF, 0)}, ("last whole frame", 1)),
    # lists
    (TRIANGLE, None), ({**TRIANGLE, "open polygon 0 d": 1}, "open polygon 0 d"), ({**TRIANGLE, "open polygon 0 corners": 4, "open polygon 0 d": 9}, None), ({**TRIANGLE, "open polygon 0 corners": 5}, "open polygon 0 corners"),
    ({**TRIANGLE, "open polygon 0 corners": 2}, "open polygon 0 corners"), ({**TRIANGLE, "open polygon 0 a": 9}, None), ({**TRIANGLE, "open polygon 0 palette": 0x2000}, "open polygon 0 palette"),
    ({**TRIANGLE, "open vertex 2 colour": 0x8000}, "open vertex 2 colour"), ({**TRIANGLE, "vertex 1 back": 2, "vertex 3 back": 0}, None), ({**TRIANGLE, "vertex 1 back": 3}, "open vertices"),
    ({**TRIANGLE, "vertices of the run": 2, "vertex 3 back": 0}, "vertex 3 back"), ({**TRIANGLE, "vertices of the run": 1, "vertex 2 back": 0}, "vertex 2 back"),
    ({"vertex 1 back": 0}, "vertex 1 back"), ({**TRIANGLE, "vertices of the run": 1, "vertex 1 back": 2}, None), ({"open vertices": 6145}, "open vertices"),
    ({"open polygons": 2049}, "open polygons"), ({"swap tick": AT, "swap parameter": 3, "swapped vertices": 2}, None), ({"swap tick": AT + 1}, "swap tick"), ({"swap parameter": 1}, "swap parameter"),
    ({"swapped vertices": 1}, "swapped vertices"), ({"swapped polygons": 1}, "swapped polygons"), ({"swap tick": 1, "swapped polygons": 1, "swapped polygon 0 corners": 0}, "swapped polygon 0 corners"),
    ({"swap tick": 1, "swapped vertices": 6145}, "swapped vertices"), ({"swap tick": 1, "swapped polygons": 2049}, "swapped polygons"),
    ({"swap tick": 1, "swapped vertices": 2, "swapped vertex 1 colour": 0x8000}, "swapped vertex 1 colour"),
    # geometry's FIFO
    (entries(0x15), None), ({"GXFIFO count": 325}, "GXFIFO count"), (entries(*[0x15] * 324), None), (entries(0x15, 0x42), "GXFIFO 1 command"), (entries(0x15, 0), "GXFIFO 1 command"), (entries(0x23), None),
    ({**entries(0x15), "geometry due": AT - 1}, "geometry due"), ({**entries(0x15), "geometry due": SOON + 1}, "geometry due"), ({**entries(0x15), "geometry due": NO_TICK}, "swap waits"),
    ({"geometry due": AT}, "swap waits"), ({**entries(0x23), "geometry due": AT}, "swap waits"), ({**entries(0x23, 0x10), "geometry due": SOON}, None), (WAITS, None), ({**WAITS, "swap waits": 2}, "swap waits"),
    ({**WAITS, **entries(0x15)}, "swap waits"), ({**WAITS, **entries(0x15), "geometry due": NO_TICK}, None), ({"swap waits": 1}, None), ({"SWAP_BUFFERS waiting parameter": 1}, "swap waits"),
    ({"GXFIFO packed commands left": 0x10, "GXFIFO parameters left": 1}, None), ({"GXFIFO packed commands left": 0x10, "GXFIFO parameters left": 2}, "GXFIFO parameters left"),
    ({"GXFIFO packed commands left": 0x10}, "GXFIFO parameters left"), ({"GXFIFO parameters left": 1}, "GXFIFO parameters left"), ({"GXFIFO packed commands left": 0x34, "GXFIFO parameters left": 32}, None),
    ({"GXFIFO packed commands left": 0xFF42FF16, "GXFIFO parameters left": 1}, None), ({"GXFIFO packed commands left": 0x1015}, "GXFIFO parameters left"), ({"GXFIFO packed commands left": 0x1000, "GXFIFO parameters left": 1}, "GXFIFO parameters left"),
    # the card
    (busy(1), None), (busy(1, starter=2, due=NO_TICK, taken=127), None), (busy(1, taken=128), "card words taken"), (busy(6, taken=4095), None), (busy(6, taken=4096), "card words taken"), (busy(7), None),
    (busy(7, taken=1), "card words taken"), (busy(0), None), (busy(0, due=NO_TICK), "card due"), (busy(0, taken=1), "card due"), (busy(1, first=0xB8), None), (busy(1, first=0xB6), "card starter"),
    (busy(1, starter=3), "card starter"), (busy(1, due=AT - 1), "card due"), (busy(1, due=SOON), None), (busy(1, due=SOON + 1), "card due"), ({"card due": AT}, "card due"), ({"card words taken": 1}, "card words taken"),
    ({"card command": bytes(range(8))}, None),
]  # fmt: skip
