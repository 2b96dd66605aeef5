"""A confused deputy. The customer says where its result shall go and names a slot
of the laboratory's. The laboratory's block may write there: under access control
it does; under full provenance, the default rule, it is refused by 16.

Then the laboratory has to take the customer's result into its curve. Full
provenance refuses that by 16 as well, unless the block is endorsed down to this
customer. Even so it may take nothing from beside or below the customer: the other
customer's result is refused, and so is the sum of both, whose label is the bottom.
"""

import muntyzhap
from muntyzhap import Code, Refused, Rule, Value

CUSTOMER, LABORATORY, OTHER_CUSTOMER, BOTTOM = range(4)

# Who stands at or below each: the laboratory is above its customers. These are
# unrelated, so it takes a principal below both.
ORDER = [
    1 << CUSTOMER | 1 << BOTTOM,
    1 << CUSTOMER | 1 << LABORATORY | 1 << OTHER_CUSTOMER | 1 << BOTTOM,
    1 << OTHER_CUSTOMER | 1 << BOTTOM,
    1 << BOTTOM,
]

# The customer's: where its result shall go, and its result. The laboratory's: a
# row of its curve, and whether it has delivered. The other customer's: its result.
PLACE, RESULT, CURVE, DELIVERED, OTHER_RESULT = range(5)
SLOTS = [
    (CUSTOMER, Value.write_view(RESULT)),
    (CUSTOMER, Value.integer(0)),
    (LABORATORY, Value.integer(50000)),
    (LABORATORY, Value.truth(False)),
    (OTHER_CUSTOMER, Value.integer(0)),
]

BUDGET = 10


# Code, and blocks: a region byte, a floor and the code of one command.


def literal(value):
    return bytes([Code.LITERAL]) + value.to_bytes()


def read(slot):
    return bytes([Code.READ]) + literal(Value.read_view(slot))


def total(left, right):
    return bytes([Code.SUM]) + left + right


def assignment(target, value):
    return bytes([Code.ASSIGNMENT]) + target + value


def assign(slot, value):
    return assignment(literal(Value.write_view(slot)), value)


def sequence(*commands):
    return bytes([Code.SEQUENCE, len(commands)]) + b"".join(commands)


def plain(region, command):
    # The floor byte of a block that is not endorsed means nothing.
    return region, 0, command


def endorsed(region, floor, command):
    return region | muntyzhap.ENDORSED, floor, command


# Sheets. Numbers of several bytes have the lowest byte first.


def number(value, length):
    return value.to_bytes(length, "little")


def store_sheet(order, slots):
    sizes = number(len(order), 1) + number(len(slots), 2)
    masks = b"".join(number(mask, 4) for mask in order)
    owners = bytes(owner for owner, _ in slots)
    return sizes + masks + owners + b"".join(value.to_bytes() for _, value in slots)


def programme_sheet(*blocks):
    regions, floors, codes = zip(*blocks)
    code = b"".join(codes)
    sizes = number(len(blocks), 1) + number(len(code), 2)
    lengths = b"".join(number(len(code), 2) for code in codes)
    return sizes + bytes(regions) + lengths + bytes(floors) + code


def play(rule, *blocks):
    """Runs the blocks and prints the end store and what was written, or the refusal."""
    print(f"rule {rule.value}, {rule}")
    try:
        finished = muntyzhap.run(store_sheet(ORDER, SLOTS), programme_sheet(*blocks), rule, BUDGET)
    except Refused as refused:
        print(refused)
        _, _, code = blocks[refused.block]
        print(f"the command there: {Code(code[refused.offset]).name.lower()}")
        return
    print(f"finished: {finished.blocks} blocks, {finished.steps} steps")
    for slot, (owner, value, writes) in enumerate(finished.slots):
        print(f"slot {slot}, owner {owner}: {value}, writes {writes}")
    for place, entry in enumerate(finished.journal):
        print(f"entry {place}: {entry}")


def deliver():
    # The customer names the curve's row as the place for its result.
    naming = plain(CUSTOMER, assign(PLACE, literal(Value.write_view(CURVE))))
    # The laboratory notes the delivery and writes where the customer says.
    noted = assign(DELIVERED, literal(Value.truth(True)))
    delivered = assignment(read(PLACE), literal(Value.integer(42)))
    delivering = plain(LABORATORY, sequence(noted, delivered))
    print("the laboratory writes where the customer says")
    for rule in Rule.ACCESS_CONTROL, Rule.FULL_PROVENANCE, Rule.DEFAULT:
        play(rule, naming, delivering)


def take(said, laboratory):
    # Both customers measure; then the laboratory's block runs.
    measured = plain(CUSTOMER, assign(RESULT, literal(Value.integer(50120))))
    other_measured = plain(OTHER_CUSTOMER, assign(OTHER_RESULT, literal(Value.integer(49870))))
    print(said)
    play(Rule.FULL_PROVENANCE, measured, other_measured, laboratory)


def main():
    deliver()
    take(
        "the laboratory takes the customer's result, not endorsed",
        plain(LABORATORY, assign(CURVE, read(RESULT))),
    )
    take(
        "the customer's result, endorsed down to the customer",
        endorsed(LABORATORY, CUSTOMER, assign(CURVE, read(RESULT))),
    )
    take(
        "the other customer's result, endorsed down to the customer",
        endorsed(LABORATORY, CUSTOMER, assign(CURVE, read(OTHER_RESULT))),
    )
    take(
        "the sum of both results, endorsed down to the customer",
        endorsed(LABORATORY, CUSTOMER, assign(CURVE, total(read(RESULT), read(OTHER_RESULT)))),
    )


if __name__ == "__main__":
    main()
