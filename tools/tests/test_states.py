"""Saved states as the tools read them: where each field stands, every rule with what it lets through and what it refuses, and states that are cut."""
import random
import re
import unittest

from made import TOP
from state_rows import AT, BYTES, CART, MASKS, OFFSETS, RANGES, ROWS, TRIANGLE, entries

from nds_tools.hostile.boot_state import state_at, values_at
from nds_tools.state_fields import layout, read_state, write_state
from nds_tools.states import Broken, Seen, Wanted, digest_of


def broken(content, wanted=Wanted()):
    """Returns offset and field of what is wrong with a state, or None."""
    try:
        read_state(content, wanted)
    except Broken as why:
        return why.offset, why.name
    return None


class States(unittest.TestCase):
    def setUp(self):
        self.state = read_state(state_at(CART, AT))

    def check(self, changes, wanted):
        """A state with changes is one, or its first bad field is the wanted one."""
        content = state_at(CART, AT, changes)
        found = broken(content)
        if wanted is None:
            self.assertIsNone(found)
            return
        name, number = wanted if isinstance(wanted, tuple) else (wanted, None)
        offset = offset_in(changes, name) + (2 * number if number is not None else 0)
        self.assertEqual(found, (offset, name if number is None else f"{name}, number {number}"))

    def test_each_field_stands_where_the_table_has_it(self):
        self.assertEqual({name: self.state.by_name[name].offset for name in OFFSETS}, OFFSETS)
        self.assertEqual(len(self.state.content), BYTES)

    def test_a_state_is_read_as_it_was_written(self):
        for tick in (0, 1, 3212, 3213, 4260, 4261, 817921, 1120380, 1120381):
            values = values_at(CART, tick)
            content = write_state(values)
            found = read_state(content, Wanted(digest_of(CART), tick + 1))
            self.assertEqual((dict(found.values), found.content), (values, content))

    def test_line_and_phase_are_those_of_the_tick(self):
        rows = ((0, 0, 0), (3212, 0, 0), (3213, 0, 1), (4260, 0, 1), (4261, 1, 0), (817920, 191, 1), (817921, 192, 0), (1120380, 262, 1), (1120381, 0, 0), (1123593, 0, 1))
        for tick, line, is_past in rows:
            for changes, wanted in (({}, None), ({"VCOUNT": line + 1}, "VCOUNT"), ({"H-blank came": 1 - is_past}, "H-blank came")):
                found = broken(state_at(CART, tick, {"VCOUNT": line, "H-blank came": is_past, **changes}))
                self.assertEqual(found and found[1], wanted, tick)

    def test_each_rule_lets_through_and_refuses(self):
        for changes, wanted in ROWS:
            with self.subTest(changes=str(changes)[:200]):
                self.check(changes, wanted)

    def test_registers_have_only_the_bits_that_they_keep(self):
        for name, kept, wrong in MASKS:
            with self.subTest(name=name):
                # (a control of a halted card's transfer may be anything)
                self.check({name: kept}, None)
                if wrong:
                    self.check({name: wrong}, name)

    def test_numbers_are_in_their_ranges(self):
        for name, most in RANGES:
            with self.subTest(name=name):
                self.check({name: most}, None)
                self.check({name: most + 1}, name)

    def test_the_first_of_several_wrong_fields_is_told(self):
        wrong = [changes for changes, wanted in ROWS if isinstance(wanted, str) and len(changes) == 1]
        chance = random.Random(5)
        for _ in range(30):
            one, two = chance.sample(wrong, 2)
            both = {**one, **two}
            alone = [broken(state_at(CART, AT, it)) for it in (one, two)]
            if len(both) == 2:
                self.assertEqual(broken(state_at(CART, AT, both))[0] <= max(alone)[0], True)

    def test_digest_and_limit(self):
        content = state_at(CART, AT)
        rows = ((Wanted(digest_of(CART), AT + 1), None), (Wanted(digest_of(CART[:-1]), AT + 1), (2, "SHA-256 of the cartridge")), (Wanted(digest_of(CART), AT), (34, "tick")))
        for wanted, found in rows:
            self.assertEqual(broken(content, wanted), found)

    def test_a_state_that_is_cut_or_goes_on(self):
        content = self.state.content
        rows = [
            (0, 0), (1, 1), (2, 2), (33, 2), (34, 34), (41, 34), (74, 74), (77, 74), (400, 400), (401, 400), (4194703, 400), (5015951, 4344208), (5015953, 5015953), (5018763, 5018763),
            (5018764, 5018763), (5018765, 5018765), (5215370, 5215369), (5411984 + 63, 5411984 + 60), (5416386 + 5, 5416386), (5416386 + 127, 5416386), (5416386 + 128, 5416514), (5416662, 5416659), (5416670, 5416663), (BYTES - 1, BYTES - 8),
        ]  # fmt: skip
        for length, offset in rows:
            with self.subTest(length=length):
                self.assertEqual(broken(content[:length])[0], offset)
        self.assertEqual(broken(content + b"\0"), (BYTES, "the end"))
        bad = bytearray(content[: 5018763 + 99])
        bad[5018763 + 1] = 0x80
        self.assertEqual(broken(bytes(bad)), (5018763, "frame being drawn, number 0"), "a wrong number comes before one that isn't whole")

    def test_lists_move_what_follows(self):
        changes = {"ARM9 IPCFIFORECV count": 3, "ARM7 IPCFIFORECV count": 1, **TRIANGLE, "swap tick": 5, "swapped vertices": 2, **entries(0x15, 0x10)}
        found = read_state(state_at(CART, AT, changes))
        more = 4 * 4 + 3 * 22 + 25 + 2 * 22 + 2 * 5
        self.assertEqual((found.by_name["KEYINPUT pressed"].offset, found.by_name["card due"].offset), (5018212 + 16, 5416676 + more))
        self.assertEqual(len(found.content), BYTES + more)

    def test_any_byte_changed_is_told_at_it_or_later_or_is_another_state(self):
        content, chance = self.state.content, random.Random(7)
        small = [it for it in self.state.placed if it.field.size < 100]
        for _ in range(40):
            it = chance.choice(small)
            at = chance.randrange(it.offset, it.end)
            changed = bytearray(content)
            changed[at] ^= 1 << chance.randrange(8)
            found = broken(bytes(changed))
            if found:
                self.assertGreaterEqual(found[0], it.offset)
            else:
                self.assertEqual(read_state(bytes(changed)).content, bytes(changed))

    def test_the_document_has_the_offsets_of_fields(self):
        with open(f"{TOP}/docs/STATES.md", encoding="utf-8") as it:
            text = it.read()
        first = [line.split("|")[1] for line in text.splitlines() if line.startswith("| ")]
        told = {int(it.replace(",", "")) for cell in first for it in re.findall(r"\d{1,3}(?:,\d{3})+", cell)} - {BYTES}
        starts = {it.offset for it in self.state.placed}
        self.assertEqual(sorted(told - starts), [])
        self.assertGreater(len(told), 70)
        lists = 2 * 16 * 4 + 2 * (6144 * 22 + 2048 * 25) + 324 * 5
        for number in (BYTES, BYTES + lists):
            self.assertIn(f"{number:,}", text)
        for name, at in (("stored projection matrix", 5416208), ("ARM9 DMA last unit", 5018366), ("ARM7 DMA last unit", 5018526), ("POS_RESULT", 5416585), ("VEC_RESULT x", 5416601)):
            self.assertEqual(self.state.by_name[name].offset, at)

    def test_values_that_do_not_fit_are_not_written(self):
        values = values_at(CART, AT)
        for changes in ({"WRAMCNT": 256}, {"main": b""}, {"VTX x": 40000}, {"SHININESS": bytes(127)}, {"no field": 1}):
            with self.assertRaises(ValueError):
                write_state({**values, **changes})


def offset_in(changes, name):
    """Returns where a field begins in a state with changes, by adding up the fields before it without their rules."""
    if name in OFFSETS and not any(it.endswith(("count", "vertices", "polygons")) for it in changes):
        return OFFSETS[name]
    seen, at, values = Seen(), 0, values_at(CART, AT, changes)
    for field in layout(seen, Wanted()):
        if field.name == name:
            return at
        seen[field.name] = values[field.name]
        at += field.size
    raise AssertionError(name)


if __name__ == "__main__":
    unittest.main()
