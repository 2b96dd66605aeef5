"""Tests of the module muntyzhap, over the library that it finds.

    python3 python/test_muntyzhap.py

The module is that of this folder, or of the folder that MUNTYZHAP_PYTHON names,
such as an installed one. It is held to the repository's header, to the words of
the wrapper for Rust, and to what README says of the calls.
"""

import array
import contextlib
import copy
import ctypes
import ctypes.util
import io
import os
import pickle
import re
import shutil
import subprocess
import sys
import tempfile
import threading
import unittest
from pathlib import Path

REPOSITORY = Path(__file__).resolve().parents[1]
FOLDER = Path(os.environ.get("MUNTYZHAP_PYTHON") or REPOSITORY / "python").resolve()
sys.path.insert(0, str(FOLDER))

import muntyzhap  # noqa: E402
from muntyzhap import (  # noqa: E402
    MOST_BUDGET,
    PAUSE_BYTES,
    SLOT_BYTES,
    Checkpoint,
    Code,
    Entry,
    Finished,
    Kind,
    Paused,
    Refusal,
    Refused,
    Rule,
    Slot,
    Value,
)

HEADER = (REPOSITORY / "include" / "muntyzhap.h").read_text()

# Sheets. Numbers of several bytes have the lowest byte first.

LOW, HIGH = 0, 1
# Principal 1 stands above principal 0.
MASKS = [0b01, 0b11]
SLOTS = [(LOW, Value.integer(5)), (HIGH, Value.integer(7))]


def store_sheet(masks, slots):
    sheet = bytes([len(masks)]) + len(slots).to_bytes(2, "little")
    sheet += b"".join(mask.to_bytes(4, "little") for mask in masks)
    return sheet + bytes(owner for owner, _ in slots) + b"".join(value.to_bytes() for _, value in slots)


def programme_sheet(*blocks):
    code = b"".join(code for _, code in blocks)
    sheet = bytes([len(blocks)]) + len(code).to_bytes(2, "little")
    sheet += bytes(region for region, _ in blocks)
    sheet += b"".join(len(code).to_bytes(2, "little") for _, code in blocks)
    return sheet + bytes(len(blocks)) + code


def literal(value):
    return bytes([Code.LITERAL]) + value.to_bytes()


def integer(number):
    return literal(Value.integer(number))


def read(slot):
    return bytes([Code.READ]) + literal(Value.read_view(slot))


def assign(slot, value):
    return bytes([Code.ASSIGNMENT]) + literal(Value.write_view(slot)) + value


def sequence(*commands):
    return bytes([Code.SEQUENCE, len(commands)]) + b"".join(commands)


SKIP = bytes([Code.SKIP])
STORE = store_sheet(MASKS, SLOTS)
# Slot 0 := 42 by the low principal, then slot 1 := slot 0 by the high one.
TWO_BLOCKS = programme_sheet((LOW, assign(0, integer(42))), (HIGH, assign(1, read(0))))


def counting(rounds):
    """while slot 0 < rounds do slot 0 := slot 0 + 1, by the low principal."""
    guard = bytes([Code.LESS_THAN]) + read(0) + integer(rounds)
    more = assign(0, bytes([Code.SUM]) + read(0) + integer(1))
    return programme_sheet((LOW, bytes([Code.WHILE]) + guard + more))


# Where the loop's assignment starts.
BODY = 23
ZERO = store_sheet(MASKS, [(LOW, Value.integer(0)), (HIGH, Value.truth(True))])


class Header(unittest.TestCase):
    """The module is held to muntyzhap.h."""

    def defined(self):
        """What the header defines, numbers and texts, by name without its prefix."""
        known = {}
        for name, meaning in re.findall(r"^#define MUNTYZHAP_(\w+)[ \t]+(.+)$", HEADER.replace("\\\n", ""), re.M):
            names = re.sub(r"MUNTYZHAP_(\w+)", lambda found: str(known[found.group(1)]), meaning)
            self.assertRegex(names, r'^("[\d.]+"|[\dxA-F+*() ]+)$')
            known[name] = eval(names)
        self.assertGreater(len(known), 50)
        return known

    def test_constants(self):
        header = self.defined()
        plain = [name for name in muntyzhap.__all__ if name.isupper() and name != "LIBRARY"]
        module = {name: getattr(muntyzhap, name) for name in plain}
        for group, prefix in ((Rule, ""), (Kind, "KIND_"), (Code, ""), (Refusal, "")):
            module.update((prefix + one.name, one.value) for one in group)
        self.assertEqual(header.pop("FINISHED"), 0)
        numbers = {name: number for name, number in header.items() if not name.startswith("VERSION")}
        self.assertEqual(module, numbers)

    def test_one_version(self):
        header = self.defined()
        parts = tuple(header[f"VERSION_{part}"] for part in ("MAJOR", "MINOR", "PATCH"))
        self.assertEqual(muntyzhap.version(), parts)
        self.assertEqual(str(muntyzhap.version()), header["VERSION"])
        self.assertEqual(muntyzhap.__version__, header["VERSION"])
        self.assertEqual(muntyzhap._library.muntyzhap_version(), header["VERSION_NUMBER"])

    def test_declarations(self):
        types = {
            "uint32_t": ctypes.c_uint32,
            "size_t": ctypes.c_size_t,
            "const uint8_t *": ctypes.c_char_p,
            "uint8_t *": ctypes.c_void_p,
            "struct muntyzhap_entry *": ctypes.c_void_p,
            "size_t *": ctypes.POINTER(ctypes.c_size_t),
            "struct muntyzhap_answer": muntyzhap._Answer,
        }
        code = re.sub(r"/\*.*?\*/", "", HEADER, flags=re.S)
        declared = re.findall(r"^(uint32_t|struct muntyzhap_answer)\s+(muntyzhap_\w+)\(([^)]*)\);", code, re.M)
        self.assertEqual([name for _, name, _ in declared], re.findall(r"\b(muntyzhap_\w+)\(", code))
        calls = {}
        for result, name, parameters in declared:
            words = [] if parameters == "void" else [" ".join(one.split()) for one in parameters.split(",")]
            kinds = [re.sub(r"\w+$", "", one).strip() for one in words]
            calls[name] = ([types[kind] for kind in kinds], types[result])
        self.assertEqual(muntyzhap._CALLS, calls)

    def test_structs(self):
        asserted = re.findall(r"muntyzhap_(\w+)_has_(\d+)_bytes", HEADER)
        sizes = {name: int(size) for name, size in asserted}
        for name, size in sizes.items():
            self.assertEqual(ctypes.sizeof(getattr(muntyzhap, f"_{name.capitalize()}")), size)
        self.assertEqual(sorted(sizes), ["answer", "entry", "value"])
        self.assertEqual(muntyzhap._ENTRY.size, sizes["entry"])
        for name in sizes:
            body = re.search(rf"^struct muntyzhap_{name} {{(.*?)^}};", HEADER, re.S | re.M).group(1)
            fields = re.findall(r"(\w+);", re.sub(r"/\*.*?\*/", "", body, flags=re.S))
            declared = getattr(muntyzhap, f"_{name.capitalize()}")._fields_
            self.assertEqual([field[0] for field in declared], fields)

    def test_meanings_are_those_of_the_wrapper_for_rust(self):
        source = (REPOSITORY / "rust" / "muntyzhap" / "src" / "refusal" / "meaning.rs").read_text()
        said = re.findall(r'Refusal::(\w+)(?:\(_\))? => (?:\{\s*)?"((?:[^"\\]|\\\s+)*)"', source)
        words = {name: re.sub(r"\\\s+", "", meaning) for name, meaning in said}
        own = {one.name.title().replace("_", ""): one.meaning for one in Refusal}
        self.assertEqual(own, words)
        self.assertEqual(len(set(own.values())), 19)


def nested_reads(count):
    return assign(0, bytes([Code.READ] * count) + literal(Value.read_view(0)))


def damaged():
    """A checkpoint with an unused byte of its pause sheet altered."""
    good = muntyzhap.start(STORE, TWO_BLOCKS, budget=1).checkpoint
    return Checkpoint(good.output, good.pause_sheet[:-1] + b"\x01")


def checkpoint_of_one_slot():
    store = store_sheet(MASKS, SLOTS[:1])
    return muntyzhap.start(store, programme_sheet((LOW, assign(0, integer(1)))), budget=0).checkpoint


NONE = programme_sheet()
CAPABILITY, ACCESS = Rule.CAPABILITY, Rule.ACCESS_CONTROL
OTHERS_SLOT = programme_sheet((LOW, sequence(assign(0, integer(1)), assign(1, integer(1)))))
NO_GUARD = bytes([Code.IF]) + integer(1) + SKIP + SKIP

# For each refusal: the call, and its place and steps, if it has any.
REFUSED = {
    1: (lambda: muntyzhap.run(STORE + b"\0", NONE), None, None),
    2: (lambda: muntyzhap.run(bytes(3), NONE), None, None),
    3: (lambda: muntyzhap.run(store_sheet([1, 2], []), NONE), None, None),
    4: (lambda: muntyzhap.run(store_sheet(MASKS, [(2, Value.integer(0))]), NONE), None, None),
    5: (lambda: muntyzhap.run(store_sheet(MASKS, [(LOW, Value.read_view(1))]), NONE), None, None),
    6: (lambda: muntyzhap.run(STORE, NONE + b"\0"), None, None),
    7: (lambda: muntyzhap.run(STORE, bytes([65, 0, 0])), None, None),
    8: (lambda: muntyzhap.run(STORE, programme_sheet((2, SKIP))), None, None),
    9: (lambda: muntyzhap.run(STORE, programme_sheet((LOW, SKIP), (LOW, assign(0, b"\xff")))), (1, 11), None),
    10: (lambda: muntyzhap.run(STORE, programme_sheet((LOW, nested_reads(9)))), (0, 19), None),
    11: (lambda: muntyzhap.run(STORE, NONE, budget=MOST_BUDGET + 1), None, None),
    12: (lambda: muntyzhap.carry_on(STORE, TWO_BLOCKS, checkpoint_of_one_slot(), budget=9), None, None),
    13: (lambda: muntyzhap.run(STORE, programme_sheet((LOW, SKIP), (LOW, NO_GUARD))), (1, 0), 0),
    14: (lambda: muntyzhap.run(STORE, OTHERS_SLOT), (0, 23), 1),
    15: (lambda: muntyzhap.run(STORE, OTHERS_SLOT, CAPABILITY), (0, 23), 1),
    16: (lambda: muntyzhap.run(STORE, TWO_BLOCKS), (1, 0), 1),
    17: (lambda: muntyzhap.run(STORE, TWO_BLOCKS, budget=0), (0, 0), 0),
    18: (lambda: muntyzhap.run(STORE, TWO_BLOCKS, ACCESS, entries=1), (1, 0), 1),
    19: (lambda: muntyzhap.carry_on(STORE, TWO_BLOCKS, damaged(), budget=9), None, None),
}


class Refusals(unittest.TestCase):
    def refused(self, call, *arguments, **named):
        with self.assertRaises(Refused) as caught:
            call(*arguments, **named)
        return caught.exception

    def test_every_refusal(self):
        self.assertEqual(sorted(REFUSED), [one.value for one in Refusal])
        for number, (call, place, steps) in REFUSED.items():
            with self.subTest(number=number):
                refused = self.refused(call)
                self.assertEqual(refused.number, number)
                self.assertIs(Refusal(refused.number).meaning, refused.meaning)
                self.assertEqual((refused.block, refused.offset), place or (None, None))
                self.assertEqual(refused.steps, steps)
                words = f"refused by {number}"
                words += f" in block {place[0]} at offset {place[1]}" if place else ""
                words += f", steps done {steps}" if steps is not None else ""
                self.assertEqual(str(refused), f"{words}: {refused.meaning}")

    def test_stretches_refuse_what_runs_refuse(self):
        for store, programme, number in (
            (STORE[:-1], NONE, 1),
            (STORE, NONE[:-1], 6),
            (STORE, OTHERS_SLOT, 14),
            (STORE, TWO_BLOCKS, 16),
        ):
            refused = self.refused(muntyzhap.start, store, programme)
            once = self.refused(muntyzhap.run, store, programme)
            self.assertEqual((refused.number, str(refused)), (number, str(once)))

    def test_store_sheets(self):
        self.assertIsNone(muntyzhap.check_store(STORE))
        for sheet, number in (
            (b"", 1),
            (STORE[:-1], 1),
            (b"\x21\0\0", 2),
            (store_sheet([1, 2], []), 3),
            (store_sheet(MASKS, [(2, Value.integer(0))]), 4),
            (STORE[:-9] + b"\x04" + bytes(8), 5),
        ):
            self.assertEqual(self.refused(muntyzhap.check_store, sheet).number, number)

    def test_table_sheets(self):
        table = STORE[:-18]
        self.assertIsNone(muntyzhap.check_table(table))
        for sheet, number in (
            (STORE, 1),
            (table[:-1], 1),
            (b"\x21\0\0", 2),
            (store_sheet([1, 2], []), 3),
            (table[:-1] + b"\x02", 4),
        ):
            self.assertEqual(self.refused(muntyzhap.check_table, sheet).number, number)

    def test_programme_sheets(self):
        self.assertIsNone(muntyzhap.check_programme(TWO_BLOCKS, 2, 2))
        for arguments, number, place in (
            ((TWO_BLOCKS[:-1], 2, 2), 6, (None, None)),
            ((bytes([65, 0, 0]), 2, 2), 7, (None, None)),
            ((TWO_BLOCKS, 1, 2), 8, (None, None)),
            ((TWO_BLOCKS, 2, 1), 9, (1, 2)),
            ((programme_sheet((LOW, SKIP), (LOW, nested_reads(9))), 2, 2), 10, (1, 19)),
        ):
            refused = self.refused(muntyzhap.check_programme, *arguments)
            self.assertEqual((refused.number, refused.block, refused.offset), (number, *place))
            self.assertIsNone(refused.steps)
        self.assertIsNone(muntyzhap.check_programme(TWO_BLOCKS, 2**64 - 1, 2**64 - 1))
        for wrong in (-1, 2**64):
            self.assertRaises(ValueError, muntyzhap.check_programme, TWO_BLOCKS, wrong, 2)
            self.assertRaises(ValueError, muntyzhap.check_programme, TWO_BLOCKS, 2, wrong)
        for wrong in (True, 2.0, "2", None):
            self.assertRaises(TypeError, muntyzhap.check_programme, TWO_BLOCKS, wrong, 2)
            self.assertRaises(TypeError, muntyzhap.check_programme, TWO_BLOCKS, 2, wrong)

    def test_a_number_that_is_not_known(self):
        refused = Refused(20, 1, 2, 3)
        self.assertEqual(str(refused), "refused by 20: a number that this module does not know")
        self.assertEqual((refused.block, refused.offset, refused.steps), (None, None, None))

    def test_refusals_can_be_kept(self):
        refused = self.refused(muntyzhap.run, STORE, TWO_BLOCKS)
        for kept in (pickle.loads(pickle.dumps(refused)), copy.copy(refused)):
            self.assertEqual(str(kept), str(refused))
            self.assertEqual(vars(kept), vars(refused))


class Runs(unittest.TestCase):
    def test_the_repository_s_example(self):
        given = (REPOSITORY / "examples" / "two-blocks.bin").read_bytes()
        rule, budget = given[0], int.from_bytes(given[1:5], "little")
        store, programme = given[5 : 5 + len(STORE)], given[5 + len(STORE) :]
        self.assertEqual((store, programme), (STORE, TWO_BLOCKS))
        finished = muntyzhap.run(store, programme, rule, budget)
        value = Value.integer(42)
        slots = (Slot(LOW, value, 1), Slot(HIGH, value, 1))
        journal = (
            Entry(block=0, offset=0, slot=0, old=Value.integer(5), new=value),
            Entry(block=1, offset=0, slot=1, old=Value.integer(7), new=value),
        )
        self.assertEqual(finished, Finished(blocks=2, steps=2, slots=slots, journal=journal))
        self.assertEqual(str(journal[1]), "block 1 at offset 0 wrote integer 42 to slot 1 over integer 7")

    def test_values_of_all_kinds_come_back(self):
        numbers = (-(2**63), -(2**63) + 1, -1, 0, 1, 2**31, 2**32, 2**63 - 1)
        values = [Value.integer(number) for number in numbers]
        values += [Value.truth(False), Value.truth(True), Value.read_view(0), Value.write_view(1)]
        for old, new in zip(values, values[1:] + values[:1]):
            store = store_sheet(MASKS, [(LOW, old), (LOW, Value.integer(0))])
            finished = muntyzhap.run(store, programme_sheet((LOW, assign(0, literal(new)))))
            self.assertEqual(finished.slots[0], Slot(LOW, new, 1))
            self.assertIs(type(finished.slots[0].value.payload), type(new.payload))
            self.assertEqual(finished.journal, (Entry(0, 0, 0, old, new),))

    def test_the_journal_leads_from_the_end_store_to_the_opening_one(self):
        finished = muntyzhap.run(ZERO, counting(20))
        self.assertEqual((finished.blocks, finished.steps, len(finished.journal)), (1, 41, 20))
        self.assertEqual([slot.writes for slot in finished.slots], [20, 0])
        values = [slot.value for slot in finished.slots]
        for entry in reversed(finished.journal):
            self.assertEqual(values[entry.slot], entry.new)
            values[entry.slot] = entry.old
        self.assertEqual(values, [Value.integer(0), Value.truth(True)])

    def test_journals_of_any_length(self):
        for entries in (None, 20, 21, 10**30):
            self.assertEqual(len(muntyzhap.run(ZERO, counting(20), entries=entries).journal), 20)
        for entries in (0, 1, 19):
            with self.assertRaises(Refused) as caught:
                muntyzhap.run(ZERO, counting(20), entries=entries)
            self.assertEqual(caught.exception.number, Refusal.JOURNAL_FULL)
            self.assertEqual(caught.exception.steps, 2 * entries + 1)
        self.assertEqual(muntyzhap.run(STORE, NONE, budget=0, entries=0).journal, ())
        self.assertRaises(ValueError, muntyzhap.run, ZERO, NONE, entries=-1)
        for wrong in (True, 1.0, "1"):
            self.assertRaises(TypeError, muntyzhap.run, ZERO, NONE, entries=wrong)

    def test_the_largest_run(self):
        finished = muntyzhap.run(ZERO, counting(499_999), budget=MOST_BUDGET)
        self.assertEqual((finished.steps, len(finished.journal)), (999_999, 499_999))
        self.assertEqual(finished.journal[-1], Entry(0, BODY, 0, Value.integer(499_998), Value.integer(499_999)))

    def test_rules(self):
        numbers = {0: "access control", 1: "capability", 2: "explicit provenance", 3: "full provenance"}
        numbers[255] = "the default rule"
        self.assertEqual({rule.value: f"{rule}" for rule in Rule}, numbers)
        for rule in Rule:
            answers = []
            for given in (rule, rule.value):
                try:
                    answers.append(muntyzhap.run(STORE, TWO_BLOCKS, given))
                except Refused as refused:
                    answers.append(refused.number)
            lenient = rule in (Rule.ACCESS_CONTROL, Rule.CAPABILITY)
            self.assertEqual(answers[0], answers[1])
            self.assertEqual(isinstance(answers[0], Finished), lenient, rule)

    def test_arguments_are_judged_before_the_call(self):
        kept = muntyzhap.start(STORE, TWO_BLOCKS, budget=1).checkpoint
        calls = (
            lambda **named: muntyzhap.run(STORE, TWO_BLOCKS, **named),
            lambda **named: muntyzhap.start(STORE, TWO_BLOCKS, **named),
            lambda **named: muntyzhap.carry_on(STORE, TWO_BLOCKS, kept, **{"budget": 9, **named}),
        )
        for call in calls:
            for rule in (-1, 4, 254, 256, 259, 511, 2**32 + 3):
                self.assertRaises(ValueError, call, rule=rule)
            for rule in (True, False, 3.0, "3", None, Kind):
                self.assertRaises(TypeError, call, rule=rule)
            for budget in (-1, 2**32, 2**32 + 1):
                self.assertRaises(ValueError, call, budget=budget)
            for budget in (True, 1.0, "1", None):
                self.assertRaises(TypeError, call, budget=budget)
            for budget in (MOST_BUDGET + 1, 2**32 - 1):
                with self.assertRaises(Refused) as caught:
                    call(budget=budget)
                self.assertEqual(caught.exception.number, Refusal.ARGUMENTS)

    def test_a_length_that_a_class_makes_up_is_not_believed(self):
        class Longer(bytes):
            def __len__(self):
                return 10 * super().__len__()

        self.assertIsNone(muntyzhap.check_store(Longer(STORE)))
        with self.assertRaises(Refused) as caught:
            muntyzhap.check_store(Longer(STORE[:-1]))
        self.assertEqual(caught.exception.number, Refusal.STORE_LENGTH)

    def test_buffers_of_all_kinds(self):
        expected = muntyzhap.run(STORE, TWO_BLOCKS, ACCESS)
        spaced = bytes(byte for one in STORE for byte in (one, 0xA5))
        stores = (bytearray(STORE), memoryview(STORE), memoryview(spaced)[::2], array.array("B", STORE))
        for store in stores:
            muntyzhap.check_store(store)
            self.assertEqual(muntyzhap.run(store, bytearray(TWO_BLOCKS), ACCESS), expected)
            paused = muntyzhap.start(store, memoryview(TWO_BLOCKS), ACCESS, budget=1)
            taken_up = Checkpoint.from_bytes(bytearray(paused.checkpoint.to_bytes()))
            self.assertEqual(taken_up, paused.checkpoint)
            finished = muntyzhap.carry_on(store, TWO_BLOCKS, taken_up, ACCESS, budget=9)
            self.assertEqual(finished.slots, expected.slots)
        self.assertIsNone(muntyzhap.check_programme(bytearray(TWO_BLOCKS), 2, 2))
        self.assertIsNone(muntyzhap.check_table(memoryview(STORE)[:-18]))
        for wrong in ("text", None, 5, [1, 2]):
            self.assertRaisesRegex(TypeError, "store must be bytes", muntyzhap.run, wrong, NONE)
            self.assertRaisesRegex(TypeError, "programme must be bytes", muntyzhap.run, STORE, wrong)
            self.assertRaises(TypeError, muntyzhap.check_store, wrong)
            self.assertRaises(TypeError, muntyzhap.check_table, wrong)
            self.assertRaises(TypeError, muntyzhap.check_programme, wrong, 2, 2)
            self.assertRaises(TypeError, Checkpoint.from_bytes, wrong)
            self.assertRaises(TypeError, muntyzhap.carry_on, STORE, NONE, wrong, budget=1)

    def test_threads(self):
        expected, got = muntyzhap.run(ZERO, counting(400)), []
        threads = [threading.Thread(target=lambda: got.append(muntyzhap.run(ZERO, counting(400)))) for _ in range(8)]
        for thread in threads:
            thread.start()
        for thread in threads:
            thread.join()
        self.assertEqual(got, [expected] * 8)


class Stretches(unittest.TestCase):
    def test_slices_end_as_one_go(self):
        once = muntyzhap.start(ZERO, counting(20))
        self.assertEqual((once.blocks, once.steps, once.journal), (1, 41, None))
        self.assertEqual(once.slots, muntyzhap.run(ZERO, counting(20)).slots)
        for stretch in (1, 2, 3, 7, 40, 41):
            outcome, stretches = muntyzhap.start(ZERO, counting(20), budget=stretch), 1
            while isinstance(outcome, Paused):
                steps = stretches * stretch
                self.assertEqual(outcome, muntyzhap.start(ZERO, counting(20), budget=steps))
                self.assertEqual((outcome.block, outcome.offset), (0, 0 if steps % 2 == 0 else BODY))
                checkpoint = outcome.checkpoint
                self.assertEqual((checkpoint.steps, checkpoint.block), (steps, 0))
                written = Slot(LOW, Value.integer(steps // 2), steps // 2)
                self.assertEqual(checkpoint.slots(ZERO), (written, Slot(HIGH, Value.truth(True), 0)))
                stretches += 1
                outcome = muntyzhap.carry_on(ZERO, counting(20), checkpoint, budget=stretches * stretch)
            self.assertEqual(outcome, once)

    def test_a_saved_checkpoint_is_taken_up(self):
        checkpoint = muntyzhap.start(ZERO, counting(20), budget=7).checkpoint
        with tempfile.TemporaryDirectory() as folder:
            file = Path(folder) / "checkpoint"
            file.write_bytes(checkpoint.to_bytes())
            kept = Checkpoint.from_bytes(file.read_bytes())
        self.assertEqual(kept, checkpoint)
        self.assertEqual(checkpoint.to_bytes(), checkpoint.pause_sheet + checkpoint.output)
        self.assertEqual((len(kept.pause_sheet), len(kept.output)), (256, 26))
        whole = muntyzhap.carry_on(ZERO, counting(20), kept, budget=1000)
        self.assertEqual(whole, muntyzhap.start(ZERO, counting(20)))
        again = muntyzhap.carry_on(ZERO, counting(20), kept, budget=0)
        self.assertEqual(again, Paused(0, BODY, checkpoint))

    def test_a_damaged_checkpoint(self):
        good = muntyzhap.start(ZERO, counting(20), budget=7).checkpoint.to_bytes()
        for place, byte in ((255, 1), (5, 1), (4, 31), (256, 4), (256 + 9, 8)):
            bad = bytearray(good)
            bad[place] = byte
            with self.assertRaises(Refused) as caught:
                muntyzhap.carry_on(ZERO, counting(20), Checkpoint.from_bytes(bad), budget=1000)
            self.assertEqual(caught.exception.number, Refusal.CHECKPOINT, place)

    def test_lengths_of_checkpoints(self):
        most = PAUSE_BYTES + 256 * SLOT_BYTES
        for length in range(most + SLOT_BYTES + 1):
            if PAUSE_BYTES <= length <= most and (length - PAUSE_BYTES) % SLOT_BYTES == 0:
                self.assertEqual(Checkpoint.from_bytes(bytes(length)).to_bytes(), bytes(length))
            else:
                self.assertRaises(ValueError, Checkpoint.from_bytes, bytes(length))

    def test_slots_of_another_store(self):
        checkpoint = checkpoint_of_one_slot()
        for store in (b"", STORE[:2], STORE, STORE[:11], store_sheet(MASKS, [])):
            self.assertRaises(ValueError, checkpoint.slots, store)

    def test_the_rule_may_change(self):
        kept = muntyzhap.start(STORE, TWO_BLOCKS, ACCESS, budget=1).checkpoint
        self.assertIsInstance(muntyzhap.carry_on(STORE, TWO_BLOCKS, kept, ACCESS, budget=9), Finished)
        with self.assertRaises(Refused) as caught:
            muntyzhap.carry_on(STORE, TWO_BLOCKS, kept, budget=9)
        self.assertEqual((caught.exception.number, caught.exception.steps), (16, 1))


class Values(unittest.TestCase):
    KNOWN = (
        (Value.integer(-2), "integer -2", "Value.integer(-2)", b"\0\xfe" + b"\xff" * 7),
        (Value.integer(2**32), "integer 4294967296", "Value.integer(4294967296)", bytes([0, 0, 0, 0, 0, 1, 0, 0, 0])),
        (Value.truth(False), "truth value false", "Value.truth(False)", b"\x01" + bytes(8)),
        (Value.truth(True), "truth value true", "Value.truth(True)", b"\x01\x01" + bytes(7)),
        (Value.read_view(7), "read view of slot 7", "Value.read_view(7)", b"\x02\x07" + bytes(7)),
        (Value.write_view(255), "write view of slot 255", "Value.write_view(255)", b"\x03\xff" + bytes(7)),
    )

    def test_words_and_bytes(self):
        for value, words, shown, in_bytes in self.KNOWN:
            self.assertEqual((str(value), repr(value), value.to_bytes()), (words, shown, in_bytes))
            self.assertEqual(Value.from_bytes(in_bytes), value)
            self.assertEqual(eval(shown), value)
            self.assertIs(type(value.kind), Kind)

    def test_ill_formed_bytes(self):
        for _, _, _, in_bytes in self.KNOWN:
            self.assertRaises(ValueError, Value.from_bytes, in_bytes[:-1])
            self.assertRaises(ValueError, Value.from_bytes, in_bytes + b"\0")
            if in_bytes[0] != Kind.INTEGER:
                self.assertRaises(ValueError, Value.from_bytes, in_bytes[:-1] + b"\x80")
        self.assertRaises(ValueError, Value.from_bytes, b"\x01\x02" + bytes(7))
        self.assertRaises(ValueError, Value.from_bytes, b"\x04" + bytes(8))

    def test_what_no_value_holds(self):
        for wrong in (-(2**63) - 1, 2**63):
            self.assertRaises(ValueError, Value.integer, wrong)
        for wrong in (True, 1.0, "1"):
            self.assertRaises(TypeError, Value.integer, wrong)
        self.assertRaises(TypeError, Value.truth, 1)
        for view in (Value.read_view, Value.write_view):
            self.assertRaises(ValueError, view, -1)
            self.assertRaises(ValueError, view, 256)
            self.assertRaises(TypeError, view, False)


def examples_of(text):
    """The indented texts that start with an import, without their indentation."""
    blocks = re.findall(r"(?:^    .*\n|^\n)+", text, re.M)
    blocks = (re.sub(r"^    ", "", block, flags=re.M).strip() + "\n" for block in blocks)
    return [block for block in blocks if re.match(r"(import|from) muntyzhap\b", block)]


class Documentation(unittest.TestCase):
    def test_the_examples_run(self):
        run, slices = examples_of(muntyzhap.__doc__)
        printed = []
        for code, store, programme in (
            (run, STORE, TWO_BLOCKS),
            (run, STORE, programme_sheet((LOW, assign(0, integer(42))))),
            ("import muntyzhap\n" + slices, ZERO, counting(120)),
        ):
            with contextlib.redirect_stdout(io.StringIO()) as out:
                exec(code, {"store": store, "programme": programme})
            printed.append(out.getvalue())
        self.assertRegex(printed[0], r"^refused by 16 in block 1 at offset 0, steps done 1: provenance too low: .*\n$")
        self.assertEqual(
            printed[1],
            "slot 0: integer 42, writes 1\nslot 1: integer 7, writes 0\n"
            "entry 0: block 0 at offset 0 wrote integer 42 to slot 0 over integer 5\n",
        )
        self.assertEqual(printed[2], "100 of 1000 steps\n200 of 1000 steps\n")

    def test_readme_has_the_module_s_examples(self):
        shown, own = examples_of((REPOSITORY / "README.md").read_text()), examples_of(muntyzhap.__doc__)
        self.assertIn(own[0], shown)
        for example in shown:
            self.assertIn(example, own)

    def test_what_is_public_is_there_and_documented(self):
        self.assertEqual(len(muntyzhap.__all__), len(set(muntyzhap.__all__)))
        for name in muntyzhap.__all__:
            one = getattr(muntyzhap, name)
            self.assertTrue(not callable(one) or name in ("Buffer", "Outcome") or one.__doc__, name)


class Loading(unittest.TestCase):
    """The library that is loaded, each time in a process of its own."""

    def imported(self, library, folder=FOLDER):
        environment = {**os.environ, "PYTHONPATH": str(folder), "PYTHONDONTWRITEBYTECODE": "1"}
        environment.pop("MUNTYZHAP_LIBRARY", None)
        if library is not None:
            environment["MUNTYZHAP_LIBRARY"] = str(library)
        script = "import muntyzhap; print(muntyzhap.LIBRARY)"
        return subprocess.run(
            [sys.executable, "-c", script], env=environment, stdout=subprocess.PIPE, stderr=subprocess.PIPE, text=True
        )

    def refused(self, library, words, **named):
        ended = self.imported(library, **named)
        self.assertNotEqual(ended.returncode, 0)
        last = ended.stderr.strip().splitlines()[-1]
        self.assertTrue(last.startswith("ImportError: "), last)
        for word in words:
            self.assertIn(word, last)

    def test_the_module_is_the_one_that_was_asked_for(self):
        self.assertEqual(Path(muntyzhap.__file__).resolve().parent, FOLDER)

    def test_a_library_may_be_named(self):
        ended = self.imported(muntyzhap.LIBRARY)
        self.assertEqual((ended.returncode, ended.stdout.strip()), (0, muntyzhap.LIBRARY), ended.stderr)

    def test_a_library_that_is_missing_or_none(self):
        hints = ("make install", "make shared", "MUNTYZHAP_LIBRARY")
        self.refused("/nowhere/libmuntyzhap.so", ("/nowhere/libmuntyzhap.so", *hints))
        self.refused(REPOSITORY / "examples" / "two-blocks.bin", hints)
        self.refused(REPOSITORY, hints)

    @unittest.skipIf(ctypes.util.find_library("muntyzhap"), "the system has the library")
    def test_no_library_anywhere(self):
        with tempfile.TemporaryDirectory() as folder:
            shutil.copy(FOLDER / "muntyzhap.py", folder)
            self.refused(None, ("libmuntyzhap.so.0", "make install"), folder=folder)

    @unittest.skipUnless(shutil.which("cc"), "a library of another version takes a C compiler")
    def test_a_library_of_another_version(self):
        major, minor, patch = muntyzhap.version()
        names = re.findall(r"\b(muntyzhap_\w+)\(", HEADER)
        rest = "".join(f"void {name}(void) {{}}\n" for name in names if name != "muntyzhap_version")
        with tempfile.TemporaryDirectory() as folder:
            source, library = Path(folder) / "other.c", Path(folder) / "other.so"
            for version, good in (
                ((major, minor, patch + 1), True),
                ((major, minor + 1, patch), False),
                ((major + 1, minor, patch), False),
                (None, False),
            ):
                number = version and version[0] * 1000000 + version[1] * 1000 + version[2]
                answered = f"unsigned muntyzhap_version(void) {{ return {number}; }}\n" if version else ""
                source.write_text(rest + answered)
                subprocess.run(["cc", "-shared", "-fPIC", "-o", str(library), str(source)], check=True)
                if good:
                    self.assertEqual(self.imported(library).returncode, 0)
                elif version:
                    told = f"of version {version[0]}.{version[1]}.{version[2]}, and this module of"
                    self.refused(library, (told, muntyzhap.__version__, "MUNTYZHAP_LIBRARY"))
                else:
                    self.refused(library, ("muntyzhap_version", "make install"))


if __name__ == "__main__":
    unittest.main()
