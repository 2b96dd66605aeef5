"""The proved runner for Python, over its shared library.

The calls are the library's: check_store, check_table, check_programme, run, and
for runs that can be paused start and carry_on. What they refuse is raised as
Refused, with the refusal's number, meaning and place. Sheets are bytes,
bytearrays or memoryviews, of which any may be passed: the library judges them.

    import muntyzhap
    from muntyzhap import Refused, Rule

    try:
        finished = muntyzhap.run(store, programme, Rule.FULL_PROVENANCE, budget=1000)
    except Refused as refused:
        print(refused)
    else:
        for number, slot in enumerate(finished.slots):
            print(f"slot {number}: {slot.value}, writes {slot.writes}")
        for number, entry in enumerate(finished.journal):
            print(f"entry {number}: {entry}")

Long work in slices, where the checkpoint may be kept in a file between two:

    from muntyzhap import Checkpoint, Paused

    # At most 1000 steps, 100 at a time.
    budget, stretch = 1000, 100
    outcome = muntyzhap.start(store, programme, budget=stretch)
    while isinstance(outcome, Paused):
        steps = outcome.checkpoint.steps
        print(f"{steps} of {budget} steps")
        kept = outcome.checkpoint.to_bytes()
        if steps >= budget:
            break
        checkpoint = Checkpoint.from_bytes(kept)
        outcome = muntyzhap.carry_on(store, programme, checkpoint, budget=min(budget, steps + stretch))

The library is the file that the variable MUNTYZHAP_LIBRARY names, else the one
that was installed with this module or built in its repository, else the one that
the system's loader finds. A call takes about 106 KiB of stack, and other threads
run meanwhile.

The module is not proved; tests hold it to the library and to muntyzhap.h.
"""

from __future__ import annotations

import ctypes
import ctypes.util
import enum
import operator
import os
import struct
from dataclasses import dataclass
from pathlib import Path
from typing import Any, List, NamedTuple, Optional, Tuple, Union

__all__ = [
    "Buffer",
    "COUNT_BYTES",
    "Checkpoint",
    "Code",
    "ENDORSED",
    "Entry",
    "Finished",
    "Kind",
    "LIBRARY",
    "MOST_BLOCKS",
    "MOST_BUDGET",
    "MOST_CODE",
    "MOST_DEPTH",
    "MOST_NESTED",
    "MOST_PRINCIPALS",
    "MOST_SLOTS",
    "Outcome",
    "PAUSE_BYTES",
    "PAYLOAD_BYTES",
    "Paused",
    "Refusal",
    "Refused",
    "Rule",
    "SLOT_BYTES",
    "STEPS_BYTES",
    "Slot",
    "VALUE_BYTES",
    "Value",
    "Version",
    "carry_on",
    "check_programme",
    "check_store",
    "check_table",
    "run",
    "start",
    "version",
]

__version__ = "0.1.0"

#: What may be passed as a sheet.
Buffer = Union[bytes, bytearray, memoryview]

# Limits.
MOST_PRINCIPALS = 32
MOST_SLOTS = 256
MOST_BLOCKS = 64
MOST_CODE = 16384
#: How deep commands nest, a block's own command being depth 1.
MOST_DEPTH = 32
#: How deep an expression nests, reads and operations together.
MOST_NESTED = 8
MOST_BUDGET = 1000000

# Bytes of the sheets and of the output; numbers have the lowest byte first.
PAYLOAD_BYTES = 8
#: A value, in sheets, code and output: its kind byte and its payload.
VALUE_BYTES = 1 + PAYLOAD_BYTES
COUNT_BYTES = 4
#: A slot in the output: its value, then how often it was written.
SLOT_BYTES = VALUE_BYTES + COUNT_BYTES
PAUSE_BYTES = 256
#: The steps so far, which a pause sheet starts with.
STEPS_BYTES = 4
#: What a region byte has besides its principal when the block is endorsed.
ENDORSED = 0x80


class Rule(enum.Enum):
    """A rule set, by its number. Its text is its name."""

    ACCESS_CONTROL = 0
    CAPABILITY = 1
    EXPLICIT_PROVENANCE = 2
    FULL_PROVENANCE = 3
    #: The default rule, which is full provenance.
    DEFAULT = 255

    def __str__(self) -> str:
        return "the default rule" if self is Rule.DEFAULT else self.name.lower().replace("_", " ")


class Kind(enum.IntEnum):
    """What kind of value it is: the first of its bytes."""

    INTEGER = 0
    TRUTH = 1
    READ_VIEW = 2
    WRITE_VIEW = 3


class Code(enum.IntEnum):
    """The first bytes of expressions, 0x10 to 0x15, and of commands."""

    LITERAL = 0x10
    READ = 0x11
    SUM = 0x12
    DIFFERENCE = 0x13
    LESS_THAN = 0x14
    EQUAL = 0x15
    SKIP = 0x20
    ASSIGNMENT = 0x21
    SEQUENCE = 0x22
    IF = 0x23
    WHILE = 0x24


class Refusal(enum.IntEnum):
    """The numbers of refusals, as muntyzhap.h names them."""

    STORE_LENGTH = 1
    STORE_LIMITS = 2
    ORDER_TABLE = 3
    OWNER = 4
    VALUE = 5
    PROGRAMME_LENGTH = 6
    PROGRAMME_LIMITS = 7
    REGION = 8
    ILL_FORMED_CODE = 9
    NESTED_TOO_DEEP = 10
    ARGUMENTS = 11
    OUTPUT_LENGTH = 12
    WRONG_KIND = 13
    NO_AUTHORITY = 14
    WRITE_VIEW_NOT_ALLOWED = 15
    PROVENANCE_TOO_LOW = 16
    BUDGET_SPENT = 17
    JOURNAL_FULL = 18
    CHECKPOINT = 19

    @property
    def meaning(self) -> str:
        """What it means, in words."""
        return _MEANINGS[self]


_MEANINGS = {
    Refusal.STORE_LENGTH: "the store sheet's length is not what its sizes say, or it is too short to hold them",
    Refusal.STORE_LIMITS: "the store sheet must have 1 to 32 principals and at most 256 slots",
    Refusal.ORDER_TABLE: "the order table is not good: it names principals that there are not, does not order"
    " those that there are, or leaves two of them without a meet or all without a top",
    Refusal.OWNER: "the owner of a slot is not one of the principals",
    Refusal.VALUE: "the value of a slot is ill-formed: its kind is unknown, its truth value is neither 0 nor 1,"
    " or its view is of a slot that there is not",
    Refusal.PROGRAMME_LENGTH: "the programme sheet's length is not what its sizes say, it is too short to hold"
    " them, or its block lengths do not add up to its code",
    Refusal.PROGRAMME_LIMITS: "the programme sheet may have at most 64 blocks and 16,384 bytes of code",
    Refusal.REGION: "the region of a block, or the floor of an endorsed one, is not one of the principals",
    Refusal.ILL_FORMED_CODE: "the code is ill-formed: an unknown byte, a bad count or literal, code that ends"
    " early, or bytes left over",
    Refusal.NESTED_TOO_DEEP: "the code is nested too deep: commands may nest 32 deep, and in an expression reads"
    " and operations together 8 deep",
    Refusal.ARGUMENTS: "the rule must be 0, 1, 2, 3 or 255, and the budget at most 1,000,000 steps",
    Refusal.OUTPUT_LENGTH: "an output must have 13 bytes for each slot of the store, and a pause sheet 256 bytes",
    Refusal.WRONG_KIND: "wrong kind: a guard must be a truth value, what is read through must be a read view, a"
    " target must be a write view, and what a sum, a difference or a less-than is of must be two integers",
    Refusal.NO_AUTHORITY: "the region lacks authority: it does not stand at or above the owner of the slot to be"
    " written",
    Refusal.WRITE_VIEW_NOT_ALLOWED: "a write view is not allowed to this region: the owner of its slot does not"
    " stand at or below the region",
    Refusal.PROVENANCE_TOO_LOW: "provenance too low: the meet of the labels of target, value and, under rule 3,"
    " branch stands neither at or above the owner of the slot to be written nor, if the block is endorsed, at or"
    " above its floor",
    Refusal.BUDGET_SPENT: "the budget is spent, and another step was to be done",
    Refusal.JOURNAL_FULL: "the journal is full: each assignment needs an entry, and none is left for this one",
    Refusal.CHECKPOINT: "the checkpoint is not good: its path leads to no assignment, if or while, a label on it"
    " does not stand at or below the one outside or is another one in a sequence, an unused byte is not 0, a value"
    " is ill-formed, or counts add up to more than the steps",
}

# The refusals that have a place in a programme, and those of a run that had begun.
_IN_CODE = range(Refusal.ILL_FORMED_CODE, Refusal.NESTED_TOO_DEEP + 1)
_IN_RUN = range(Refusal.WRONG_KIND, Refusal.JOURNAL_FULL + 1)


class Refused(Exception):
    """A call was refused. What it would have written is not there.

    number: the refusal's, 1 to 19, which compares with those of Refusal.
    meaning: what it means, in words.
    block, offset: its place, the first byte of the command whose step was
        forbidden (13 to 18), or the byte in code that is not good (9 and 10);
        else None.
    steps: the steps done before a forbidden one (13 to 18); else None.
    """

    number: int
    meaning: str
    block: Optional[int]
    offset: Optional[int]
    steps: Optional[int]

    def __init__(self, number: int, block: int = 0, offset: int = 0, steps: int = 0) -> None:
        super().__init__(number, block, offset, steps)
        self.number = number
        known = number in Refusal.__members__.values()
        self.meaning = Refusal(number).meaning if known else "a number that this module does not know"
        placed = number in _IN_CODE or number in _IN_RUN
        self.block = block if placed else None
        self.offset = offset if placed else None
        self.steps = steps if number in _IN_RUN else None

    def __str__(self) -> str:
        words = f"refused by {self.number}"
        if self.block is not None:
            words += f" in block {self.block} at offset {self.offset}"
        if self.steps is not None:
            words += f", steps done {self.steps}"
        return f"{words}: {self.meaning}"


class Version(NamedTuple):
    """A version of the library. A later one is greater."""

    major: int
    minor: int
    patch: int

    def __str__(self) -> str:
        return f"{self.major}.{self.minor}.{self.patch}"


_VALUE = struct.Struct("<BQ")
_SIGNED_VALUE = struct.Struct("<Bq")


class Value(NamedTuple):
    """What a slot holds: a kind, and an integer, a truth value or a slot's number."""

    kind: Kind
    payload: int

    @classmethod
    def integer(cls, integer: int) -> Value:
        """A signed integer of 64 bits."""
        return cls(Kind.INTEGER, _number("an integer", integer, -(2**63), 2**63 - 1))

    @classmethod
    def truth(cls, truth: bool) -> Value:
        """A truth value."""
        if not isinstance(truth, bool):
            raise TypeError(f"a truth value must be a bool, not {type(truth).__name__}")
        return cls(Kind.TRUTH, truth)

    @classmethod
    def read_view(cls, slot: int) -> Value:
        """A view through which this slot may be read."""
        return cls(Kind.READ_VIEW, _number("a view's slot", slot, 0, MOST_SLOTS - 1))

    @classmethod
    def write_view(cls, slot: int) -> Value:
        """A view through which this slot may be written."""
        return cls(Kind.WRITE_VIEW, _number("a view's slot", slot, 0, MOST_SLOTS - 1))

    @classmethod
    def from_bytes(cls, value: Buffer) -> Value:
        """The value that these bytes are. ValueError if they are ill-formed."""
        value = _bytes("a value", value)
        if len(value) != VALUE_BYTES:
            raise ValueError(f"a value has {VALUE_BYTES} bytes, not {len(value)}")
        return _value(*_VALUE.unpack(value))

    def to_bytes(self) -> bytes:
        """Its bytes, as sheets and code have them."""
        return _SIGNED_VALUE.pack(self.kind, self.payload)

    def __str__(self) -> str:
        if self.kind == Kind.INTEGER:
            return f"integer {self.payload}"
        if self.kind == Kind.TRUTH:
            return "truth value true" if self.payload else "truth value false"
        return f"{'read' if self.kind == Kind.READ_VIEW else 'write'} view of slot {self.payload}"

    def __repr__(self) -> str:
        return f"Value.{Kind(self.kind).name.lower()}({self.payload!r})"


class Slot(NamedTuple):
    """A slot of a store: who owns it, what it holds, how often the run wrote it."""

    owner: int
    value: Value
    writes: int


class Entry(NamedTuple):
    """An entry of a journal: an assignment that a run made.

    block, offset: the first byte of its command. slot: the one that was written.
    old, new: what the slot held before, and what it held then.
    """

    block: int
    offset: int
    slot: int
    old: Value
    new: Value

    def __str__(self) -> str:
        return f"block {self.block} at offset {self.offset} wrote {self.new} to slot {self.slot} over {self.old}"


@dataclass(frozen=True)
class Finished:
    """A run that finished.

    blocks: the blocks of the programme, all of which ran.
    steps: the guards judged and the assignments made, in all stretches.
    slots: the end store.
    journal: the assignments made, in their order. None from start and carry_on,
        which keep no journal.
    """

    blocks: int
    steps: int
    slots: Tuple[Slot, ...]
    journal: Optional[Tuple[Entry, ...]] = None


@dataclass(frozen=True)
class Checkpoint:
    """Where a run was paused: its output so far and its pause sheet.

    carry_on takes it up over the same store and programme. Keep it where nobody
    else can write: that it is not refused by 19 does not make it one that a run
    left.
    """

    output: bytes
    pause_sheet: bytes

    @property
    def steps(self) -> int:
        """The steps done so far. A budget has to be above them for another step."""
        return int.from_bytes(self.pause_sheet[:STEPS_BYTES], "little")

    @property
    def block(self) -> int:
        """The number of the block whose step is next."""
        return self.pause_sheet[STEPS_BYTES + 1]

    def slots(self, store: Buffer) -> Tuple[Slot, ...]:
        """The slots as they are so far. ValueError for another store's sheet."""
        return _slots(_bytes("store", store), self.output)

    def to_bytes(self) -> bytes:
        """The pause sheet and then the output, to be saved."""
        return self.pause_sheet + self.output

    @classmethod
    def from_bytes(cls, saved: Buffer) -> Checkpoint:
        """The checkpoint that was saved as these bytes.

        ValueError if they are too few or too many for any store. Whether they
        fit a store (12) and are good (19), the library judges in carry_on.
        """
        saved = _bytes("a checkpoint", saved)
        slots, left = divmod(len(saved) - PAUSE_BYTES, SLOT_BYTES)
        if left != 0 or not 0 <= slots <= MOST_SLOTS:
            raise ValueError(f"{len(saved)} bytes are not a checkpoint: it has {PAUSE_BYTES}, and {SLOT_BYTES} for each slot")
        return cls(output=saved[PAUSE_BYTES:], pause_sheet=saved[:PAUSE_BYTES])


@dataclass(frozen=True)
class Paused:
    """A run whose budget was spent (17).

    block, offset: the first byte of the command whose step is next.
    checkpoint: what to carry on from. It has the steps so far.
    """

    block: int
    offset: int
    checkpoint: Checkpoint


#: How a stretch of a run ended that was not refused.
Outcome = Union[Finished, Paused]


def version() -> Version:
    """The version of the library."""
    return _version_of(_library)


def check_store(sheet: Buffer) -> None:
    """Checks a store sheet. Refused by 1 to 5."""
    sheet = _bytes("sheet", sheet)
    _judge(_library.muntyzhap_check_store(sheet, len(sheet)))


def check_table(sheet: Buffer) -> None:
    """Checks a table sheet, a store sheet that ends after its owners. Refused by 1 to 4."""
    sheet = _bytes("sheet", sheet)
    _judge(_library.muntyzhap_check_table(sheet, len(sheet)))


def check_programme(sheet: Buffer, principals: int, slots: int) -> None:
    """Checks a programme sheet for a store of so many principals and slots. Refused by 6 to 10."""
    sheet = _bytes("sheet", sheet)
    principals = _number("principals", principals, 0, _MOST_SIZE)
    slots = _number("slots", slots, 0, _MOST_SIZE)
    block, offset = ctypes.c_size_t(), ctypes.c_size_t()
    number = _library.muntyzhap_check_programme(
        sheet, len(sheet), principals, slots, ctypes.byref(block), ctypes.byref(offset)
    )
    _judge(number, block.value, offset.value)


def run(
    store: Buffer,
    programme: Buffer,
    rule: Union[Rule, int] = Rule.FULL_PROVENANCE,
    budget: int = 1000,
    entries: Optional[int] = None,
) -> Finished:
    """Checks both sheets and the arguments and runs the blocks in order.

    rule: a Rule or its number; ValueError for a number that no rule has.
    budget: the most steps. One above MOST_BUDGET is refused by 11, and one that
        32 bits can't hold is a ValueError.
    entries: how many assignments the journal has room for, beyond which the run
        is refused by 18. None is room for all that the budget allows.

    Refused by 1 to 11 and 13 to 18.
    """
    store, programme = _bytes("store", store), _bytes("programme", programme)
    limits = _limits(rule, budget)
    # An assignment is a step: what is beyond the budget is never filled.
    room = min(limits[1], MOST_BUDGET)
    if entries is not None:
        room = min(room, _number("entries", entries, 0))
    out, journal = _output_for(store), (_Entry * room)()
    answer = _library.muntyzhap_run(*_lent(store, programme), *limits, *_lent(out, journal))
    _judge(answer.number, answer.block, answer.offset, answer.steps)
    slots = _slots(store, out.raw)
    return Finished(answer.block, answer.steps, slots, _entries(journal, sum(slot.writes for slot in slots)))


def start(
    store: Buffer,
    programme: Buffer,
    rule: Union[Rule, int] = Rule.FULL_PROVENANCE,
    budget: int = 1000,
) -> Outcome:
    """The first stretch of a run that can be paused, without a journal.

    The arguments are those of run. Finished if the blocks finish, Paused if the
    budget is spent before. Refused by 1 to 11 and 13 to 16.
    """
    store, programme = _bytes("store", store), _bytes("programme", programme)
    out, pause = _output_for(store), ctypes.create_string_buffer(PAUSE_BYTES)
    answer = _library.muntyzhap_start(*_lent(store, programme), *_limits(rule, budget), *_lent(out, pause))
    return _outcome(answer, store, out.raw, pause.raw)


def carry_on(
    store: Buffer,
    programme: Buffer,
    checkpoint: Checkpoint,
    rule: Union[Rule, int] = Rule.FULL_PROVENANCE,
    *,
    budget: int,
) -> Outcome:
    """The next stretch of a run, from the checkpoint that the one before left.

    Store and programme have to be those of the stretch before. The rule may be
    another: the next step is the first that it judges. The budget includes the
    steps so far; one at or below them gives the same checkpoint again. Refused by
    1 to 16, of which 12 is a checkpoint of a store with more slots or fewer, and
    by 19 for a checkpoint that is not good.
    """
    store, programme = _bytes("store", store), _bytes("programme", programme)
    if not isinstance(checkpoint, Checkpoint):
        raise TypeError(f"checkpoint must be a Checkpoint, not {type(checkpoint).__name__}: see Checkpoint.from_bytes")
    old, sheet = _bytes("output", checkpoint.output), _bytes("pause_sheet", checkpoint.pause_sheet)
    out, pause = _output_for(store), ctypes.create_string_buffer(PAUSE_BYTES)
    answer = _library.muntyzhap_carry_on(
        *_lent(store, programme), *_limits(rule, budget), *_lent(old, sheet, out, pause)
    )
    return _outcome(answer, store, out.raw, pause.raw)


# What is passed and what comes back.

_MOST_NUMBER = 2**32 - 1
_MOST_SIZE = 2 ** (8 * ctypes.sizeof(ctypes.c_size_t)) - 1


def _bytes(name: str, buffer: Buffer) -> bytes:
    # What can be written to is copied, since other threads run during a call. So is a class of its own, which may say another length than it has.
    if type(buffer) is bytes:
        return buffer
    try:
        return bytes(memoryview(buffer))
    except TypeError:
        raise TypeError(f"{name} must be bytes, a bytearray or a memoryview, not {type(buffer).__name__}") from None


def _integer(name: str, value: Any) -> int:
    if isinstance(value, bool) or not hasattr(value, "__index__"):
        raise TypeError(f"{name} must be an int, not {type(value).__name__}")
    return operator.index(value)


def _number(name: str, value: Any, least: int, most: Optional[int] = None) -> int:
    number = _integer(name, value)
    if number < least or most is not None and number > most:
        raise ValueError(f"{name} must be {least} or more" + (f" and {most} at most" if most is not None else ""))
    return number


def _limits(rule: Union[Rule, int], budget: int) -> Tuple[int, int]:
    number = rule.value if isinstance(rule, Rule) else _integer("rule", rule)
    if all(number != known.value for known in Rule):
        raise ValueError(f"{number} is no rule's number: these are 0, 1, 2, 3 and 255")
    return number, _number("budget", budget, 0, _MOST_NUMBER)


def _lent(*buffers: Any) -> List[Any]:
    # Each with its length, in bytes or in entries.
    return [part for buffer in buffers for part in (buffer, len(buffer))]


def _output_for(store: bytes) -> Any:
    # Nothing for a sheet that can't hold its sizes: it is refused.
    slots = int.from_bytes(store[1:_SIZES], "little") if len(store) >= _SIZES else 0
    return ctypes.create_string_buffer(slots * SLOT_BYTES)


def _judge(number: int, block: int = 0, offset: int = 0, steps: int = 0) -> None:
    if number != 0:
        raise Refused(number, block, offset, steps)


def _outcome(answer: _Answer, store: bytes, out: bytes, pause: bytes) -> Outcome:
    if answer.number == Refusal.BUDGET_SPENT:
        return Paused(answer.block, answer.offset, Checkpoint(output=out, pause_sheet=pause))
    _judge(answer.number, answer.block, answer.offset, answer.steps)
    return Finished(answer.block, answer.steps, _slots(store, out))


_SLOT = struct.Struct("<BQI")
# The sizes that a store sheet starts with, one byte and two; then come the masks.
_SIZES = 3
_MASK_BYTES = 4


def _slots(store: bytes, output: bytes) -> Tuple[Slot, ...]:
    count = len(output) // SLOT_BYTES
    first = _SIZES + store[0] * _MASK_BYTES if store else 0
    owners = store[first : first + count]
    if len(_output_for(store)) != len(output) or len(owners) != count:
        raise ValueError("the output is that of another store")
    slots = zip(owners, _SLOT.iter_unpack(output))
    return tuple(Slot(owner, _value(kind, payload), writes) for owner, (kind, payload, writes) in slots)


def _entries(journal: Any, filled: int) -> Tuple[Entry, ...]:
    entries = _ENTRY.iter_unpack(ctypes.string_at(journal, filled * _ENTRY.size))
    return tuple(
        Entry(block, offset, slot, _value(old, old_payload), _value(new, new_payload))
        for block, offset, slot, old, old_payload, new, new_payload in entries
    )


def _value(kind: int, payload: int) -> Value:
    if kind == 0:
        return Value(Kind.INTEGER, payload - 2**64 if payload >= 2**63 else payload)
    if kind == 1 and payload <= 1:
        return Value(Kind.TRUTH, payload == 1)
    if kind in (2, 3) and payload < MOST_SLOTS:
        return Value(Kind.READ_VIEW if kind == 2 else Kind.WRITE_VIEW, payload)
    raise ValueError(f"ill-formed value: kind {kind}, payload {payload}")


# The library, as muntyzhap.h declares it.


class _Value(ctypes.Structure):
    _fields_ = [("kind", ctypes.c_uint8), ("payload", ctypes.c_uint64)]


class _Entry(ctypes.Structure):
    _fields_ = [
        ("block", ctypes.c_size_t),
        ("offset", ctypes.c_size_t),
        ("slot", ctypes.c_size_t),
        ("old_value", _Value),
        ("new_value", _Value),
    ]


# The same in one go, laid out as C lays it out.
_ENTRY = struct.Struct("@NNNBQBQ")


class _Answer(ctypes.Structure):
    _fields_ = [
        ("number", ctypes.c_uint32),
        ("block", ctypes.c_size_t),
        ("offset", ctypes.c_size_t),
        ("steps", ctypes.c_uint32),
    ]


_SHEET = [ctypes.c_char_p, ctypes.c_size_t]
_WRITTEN = [ctypes.c_void_p, ctypes.c_size_t]
_PLACE = ctypes.POINTER(ctypes.c_size_t)
_RULE_AND_BUDGET = [ctypes.c_uint32, ctypes.c_uint32]
_RUN = _SHEET + _SHEET + _RULE_AND_BUDGET

_CALLS = {
    "muntyzhap_version": ([], ctypes.c_uint32),
    "muntyzhap_check_store": (_SHEET, ctypes.c_uint32),
    "muntyzhap_check_table": (_SHEET, ctypes.c_uint32),
    "muntyzhap_check_programme": (_SHEET + [ctypes.c_size_t, ctypes.c_size_t, _PLACE, _PLACE], ctypes.c_uint32),
    "muntyzhap_run": (_RUN + _WRITTEN + _WRITTEN, _Answer),
    "muntyzhap_start": (_RUN + _WRITTEN + _WRITTEN, _Answer),
    "muntyzhap_carry_on": (_RUN + _SHEET + _SHEET + _WRITTEN + _WRITTEN, _Answer),
}

_VARIABLE = "MUNTYZHAP_LIBRARY"
_OWN_VERSION = Version(*map(int, __version__.split(".")))
_SONAME = f"libmuntyzhap.so.{_OWN_VERSION.major}"


def _version_of(library: ctypes.CDLL) -> Version:
    number = library.muntyzhap_version()
    return Version(number // 1000000, number // 1000 % 1000, number % 1000)


def _library_file() -> str:
    named = os.environ.get(_VARIABLE)
    if named:
        return named
    here = Path(__file__).resolve().parent
    near: List[Path] = []
    if here.parts[-3:] == ("share", "muntyzhap", "python"):
        near.append(here.parents[2] / "lib" / _SONAME)
    near.append(here.parent / "target" / "lib" / _SONAME)
    found = [str(file) for file in near if file.is_file()]
    return found[0] if found else ctypes.util.find_library("muntyzhap") or _SONAME


def _loaded(file: str) -> ctypes.CDLL:
    try:
        library = ctypes.CDLL(file)
        for name, (parameters, result) in _CALLS.items():
            call = getattr(library, name)
            call.argtypes, call.restype = parameters, result
    except (OSError, AttributeError) as error:
        raise ImportError(
            f"no library of muntyzhap {__version__} at {file} ({error}): `make install` in muntyzhap's repository"
            f" installs it, `make shared` builds it there, and {_VARIABLE} may name its file"
        ) from error
    found = _version_of(library)
    if found[:2] != _OWN_VERSION[:2]:
        raise ImportError(
            f"the library {file} is of version {found}, and this module of {__version__}: install both anew, or let"
            f" {_VARIABLE} name a library of version {_OWN_VERSION.major}.{_OWN_VERSION.minor}"
        )
    return library


#: The file that the library is, or its name, if the system's loader found it.
LIBRARY = _library_file()
_library = _loaded(LIBRARY)
