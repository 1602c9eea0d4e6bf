"""The tests that a row stands for beside itself, by the marks after its verdict.

+cuts    the input cut off before and within each field
+wide    each integer in eight bytes
+type    the frame type in two bytes
+strict  the same for a receiver that rejects frame types not in their shortest encoding"""
from typing import NamedTuple

from making.fields import Field

# Data that a length counts. Cut off, they are longer than what is left: the length is the field that breaks the rule.
COUNTED = set("crypto_data token stream_data connection_id reason_phrase datagram_data dcid scid protected".split())
# Data for whose cuts a payload's tables have separate rows.
OWN_ROWS = set("crypto_data token stream_data reason_phrase datagram_data".split())
FIXED = set("stateless_reset_token data version".split())
NEW_CONNECTION_ID = b"\x18"
SHORTEST_TYPE = "RFC 9000 12.4"


class Case(NamedTuple):
    """A test without its answers."""

    id: str
    verdict: str
    items: list
    context: dict
    sentence: str
    rfc: str


def marked(field, breaks=True):
    field = field.changed(field.bytes)
    field.breaks = breaks
    return field


def cut_fields(fields, index, keep):
    """The fields up to the first |keep| bytes of one, with a mark at the field that breaks the rule."""
    field = fields[index]
    kept, before = field.changed(field.bytes[:keep]), [marked(other, False) for other in fields[:index]]
    if field.name in COUNTED:
        return before[:-1] + [marked(before[-1]), kept]
    if field.name in FIXED:  # known to be cut off as soon as it begins
        return before + [Field(field.name + ":!"), kept]
    return before + [marked(kept)]


def cuts(form, case, title):
    rfc, code = ("RFC 9000 12.4", "FEE") if form == "payload" else ("RFC 9000 17.2", "DROP")
    fields = case.items[0]
    for index, field in enumerate(fields[1:], 1):
        if form == "payload" and field.name in OWN_ROWS:
            continue
        ways = [("before", 0)] * bool(field.bytes) + [("in", len(field.bytes) - 1)] * (len(field.bytes) > 1)
        for way, keep in ways:
            yield case._replace(
                id=f"{case.id}.cut-{way}-{field.name}",
                verdict=f"invalid {code}",
                items=[cut_fields(fields, index, keep)],
                sentence=f"{title}: cut off {'before' if way == 'before' else 'within'} its {field.name}.",
                rfc=rfc,
            )


def widened(case):
    first = case.items[0]

    def may_widen(field):
        is_byte = field.name == "length" and first[0].bytes == NEW_CONNECTION_ID
        return field.is_integer() and field.name != "type" and not is_byte

    fields = [field.widened() if may_widen(field) else field for field in first]
    return case._replace(
        id=f"{case.id}.wide",
        verdict="valid",
        items=[fields] + case.items[1:],
        sentence="Integers needn't be in their shortest encoding: each in eight bytes.",
        rfc="RFC 9000 16",
    )


def long_types(case, is_strict):
    kind, *others = case.items[0]
    kind = kind.changed(b"\x40" + kind.bytes)
    case = case._replace(rfc=SHORTEST_TYPE)
    yield case._replace(
        id=f"{case.id}.type-wide",
        verdict="open: valid or invalid PV",
        items=[[kind, *others]] + case.items[1:],
        sentence="A type MUST be in its shortest encoding; receivers MAY reject another.",
    )
    if is_strict:
        yield case._replace(
            id=f"{case.id}.type-wide-strict",
            verdict="invalid PV",
            items=[[marked(kind), *others]] + case.items[1:],
            context=case.context | {"strict": "1"},
            sentence="A receiver that rejects types in longer encodings closes with PROTOCOL_VIOLATION.",
        )


def derived(form, case, marks, title):
    if "+cuts" in marks:
        yield from cuts(form, case, title)
    if "+wide" in marks:
        yield widened(case)
    if "+type" in marks:
        yield from long_types(case, "+strict" in marks)
