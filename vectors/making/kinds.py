"""The tests of each kind of table, as pairs of a group and a test."""
import re

from making import rows, shortest
from making.derived import Case, derived
from making.fields import bytes_of, fault_in, parse
from making.readings import NEGOTIATION, VERSION_1, VERSION_2, reading, value
from run import merged

# What a reader must support besides RFC 9000 for the tests of a document or group.
EXTENSIONS = {
    "RFC 9221": "datagram",
    "ACK frequency": "ack-frequency",
    "RFC 9287": "grease",
    "RFC 9368": "version-information",
    "RFC 9369": "version-2",
}
SERVER_ID = parse("id:00 length:08 original_destination_connection_id:8394c8f03e515708")
SOURCE_ID = parse("id:0f length:08 initial_source_connection_id:f067a5502a4262b5")
LEAST_INITIAL = 1200  # bytes of a datagram that a server gets an Initial in (RFC 9000, section 14.1)
LEAST_ID = 8  # bytes of the id that a client chooses (RFC 9000, section 7.2)


def extension(form, rfc, group, items, context):
    """What a stack must support for a test to be of any use."""
    if "extension" in context or "versions" in context:
        return {}
    names = {(field.name, field.bytes.hex()) for item in items for field in item}
    found = next((known for text, known in EXTENSIONS.items() if rfc.startswith(text) or group.startswith(text)), None)
    if form == "params" and any(name == "grease_quic_bit" for name, _ in names):
        found = "grease"
    if form == "datagram" and ("version", VERSION_2) in names:
        found = "version-2"
    return {"extension": found} if found else {}


def completed(items, context):
    """A list of transport parameters with what section 7.3 requires from its sender, so that it breaks only one rule.
    """
    if context.get("complete") == "0":
        return items
    there = {item[0].number() for item in items if item[0].name == "id" and item[0].is_whole()}
    before = SERVER_ID if 0x00 not in there and context.get("from") != "client" else []
    return before + (SOURCE_ID if 0x0f not in there else []) + items


def long_header_side(item, size, is_only):
    """Who receives a packet with a long header, if only one side can; only clients read a small Initial."""
    fields = {field.name: field for field in item}
    version = value(fields["version"])
    if version == NEGOTIATION:
        return "client"
    if version not in (VERSION_1, VERSION_2):
        return "server" if is_only else "client"
    kind = (fields["first"].bytes[0] >> 4 & 3) - (version == VERSION_2) & 3
    is_small = size < LEAST_INITIAL or len(fields["dcid"].bytes if "dcid" in fields else b"") < LEAST_ID
    if kind == 3 or kind == 0 and is_small:
        return "client"
    return "server" if kind == 1 else None


def side(items):
    """Who reads a datagram: nothing if both may."""
    size = len(bytes_of(items))
    for item in items:
        if any(field.name == "version" and len(field.bytes) == 4 for field in item):
            if found := long_header_side(item, size, len(items) == 1):
                return {"side": found}
    return {}


def context_of(text):
    """The words in braces of a column, and the column without them."""
    found = re.search(r" *\{(.*?)\}", text)
    words = dict(word.split("=") for word in found[1].split()) if found else {}
    return words, re.sub(r" *\{.*?\}", "", text)


def case_of(form, row):
    """A row as a case, and its marks."""
    more, verdict = context_of(row.columns[0])
    context, text = context_of(row.columns[1])
    context |= more
    marks = re.findall(r"\+\w+", verdict)
    items = parse(text)
    context |= extension(form, row.rfc, row.group.rfc, items, context)
    if form == "params":
        items = completed(items, context)
    if form == "datagram" and "side" not in context:
        context |= side(items)
    return Case(row.id, re.sub(r" *\+\w+", "", verdict), items, context, row.sentence, row.rfc), marks


def has_shortest(form, case, read):
    """Whether a test has the shortest form of its payload: not if it matters who sent it in which packet or on which
    stream, nor for PADDING in longer types, which readers count differently."""
    if form != "payload" or not read or "packet" in case.context or case.context.get("side") == "server":
        return False
    if "side" in case.context and any(int(frame.get("stream_id", 0)) & 2 for frame in read):
        return False
    return read[0]["type"] != "PADDING" or "count" in read[0]


def structured_test(form, case):
    index, begin, known, name = fault_in(case.items)
    says_valid = "valid" in case.verdict.replace("invalid", "")
    read = reading(form, case.items, case.context) if says_valid else None
    test = {
        "id": case.id,
        "comment": case.sentence,
        "rfc": case.rfc,
        "input": bytes_of(case.items).hex(),
        "fields": [[[field.name, field.bytes.hex()] for field in item] for item in case.items],
    }
    if case.context:
        test["context"] = case.context
    if has_shortest(form, case, read):
        test["shortest"] = shortest.payload(merged(read))
    test = rows.with_answers(test, rows.answers(case.verdict, case.rfc, read))
    if "invalid" in case.verdict:
        if form != "params":
            test["read_before"] = reading(form, case.items[:index], case.context)
        test |= {"error_begin": begin, "known_at": known} | ({"known_by": name} if name else {})
    return test


def structured(form, table):
    """Payloads, datagrams and lists of transport parameters, given by their fields."""
    for row in rows.rows(table):
        case, marks = case_of(form, row)
        yield row.group, structured_test(form, case)
        for other in derived(form, case, marks, row.group.title):
            yield row.group, structured_test(form, other)


def varints(_form, table):
    """`read BYTES` or `write NUMBER`, and the result."""
    for row in rows.rows(table):
        (word, given), answer = row.columns[0].split(), row.columns[1]
        test = row.test(call=f"varint-{word}", input="" if given == "-" else given)
        is_refused = answer in ("end", "too great")
        allowed = rows.invalid(row.rfc, ["FEE", "DROP"]) if is_refused else rows.valid(row.rfc, answer)
        yield row.group, rows.with_answers(test, [allowed])


def numbers(_form, table):
    """`expand LARGEST BITS WRITTEN` or `length NUMBER ACKED`, and the number or length; if there are two, the second is
    that of A.2's pseudocode or of DEPARTING."""
    for row in rows.rows(table):
        word, *given = row.columns[0].split()
        names = ["largest", "bits", "written"] if word == "expand" else ["number", "acked"]
        given = [one if one == "-" else str(int(one, 0)) for one in given]
        test = row.test(call=f"number-{word}", context=dict(zip(names, given)), input="")
        second = "RFC 9000 A.2" if word == "length" else rows.DEPARTING
        allowed = [
            rows.invalid(by, ["DROP"]) if answer == "none" else rows.valid(by, str(int(answer, 0)))
            for by, answer in zip((row.rfc, second), row.columns[1].split(" or "))
        ]
        yield row.group, rows.with_answers(test, allowed)


def shortest_payloads(_form, table):
    """A payload, and its shortest form or `none`."""
    for row in rows.rows(table):
        given, answer = (column.replace(" ", "") for column in row.columns)
        test = row.test(input=given.replace("-", ""))
        is_none = answer == "none"
        allowed = rows.invalid(row.rfc, ["FEE", "PV"]) if is_none else rows.valid(row.rfc, answer)
        yield row.group, rows.with_answers(test, [allowed])


def headers(_form, table):
    """The fields of a header, and the bytes to write or `refused`."""
    for row in rows.rows(table):
        context = {name: text or "-" for name, text in (word.split("=") for word in row.columns[0].split())}
        answer = row.columns[1].replace(" ", "")
        allowed = rows.invalid(row.rfc, ["DROP"]) if answer == "refused" else rows.valid(row.rfc, answer)
        yield row.group, rows.with_answers(row.test(call="header-write", input="", context=context), [allowed])


def protection(_form, table):
    """A protected packet, the mask with its offset, and the first byte, number bytes and number under protection, which
    make two tests: protection removed (`.off`) and applied (`.on`)."""
    for row in rows.rows(table):
        packet, words, answer = row.columns
        context = dict(word.split("=") for word in words.split())
        off = row.test(context=context, call="unprotect", input=packet)
        if answer in rows.CODES:
            yield row.group, rows.with_answers(off, [rows.invalid(row.rfc, [answer])])
            continue
        first, number, _ = answer.split()
        at = int(context["place"])
        assert context["sample"] == packet[2 * (at + 4) : 2 * (at + 20)], row.id
        plain = first + packet[2 : 2 * at] + number + packet[2 * at + len(number) :]
        on = row.test(context=context, call="protect", input=plain)
        yield row.group, rows.with_answers(off | {"id": f"{row.id}.off"}, [rows.valid(row.rfc, answer)])
        on |= {"id": f"{row.id}.on", "comment": f"Applied: {row.sentence}"}
        yield row.group, rows.with_answers(on, [rows.valid(row.rfc, packet)])


def ciphers(_form, table):
    """A call with its context and input, and its answer or DROP."""
    for row in rows.rows(table):
        words, given, answer = row.columns
        call, *context = words.split()
        context = dict(word.split("=") for word in context)
        allowed = rows.invalid(row.rfc, [answer]) if answer in rows.CODES else rows.valid(row.rfc, answer)
        test = row.test(call=call, context=context, input=given.replace("-", ""))
        yield row.group, rows.with_answers(test, [allowed])


def layer(_form, table):
    """A call with its context and input, and its answer or `refused`."""
    for row in rows.rows(table):
        words, given, answer = row.columns
        call, *context = words.split()
        context = dict(word.split("=") for word in context)
        allowed = rows.invalid(row.rfc, ["DROP"]) if answer == "refused" else rows.valid(row.rfc, answer.replace(" ", ""))
        test = row.test(call=call, context=context, input=given.replace("-", ""))
        yield row.group, rows.with_answers(test, [allowed])
