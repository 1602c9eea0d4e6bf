"""The figures of frames (RFC 9000, section 19)."""
import collections

from lib.format.figures import figure, lines_of, section_of
from lib.tables.formats import power

COUNTS = "[ECN Counts (..)]"
# What the values of a frame are in the code, by its name.
MEANINGS = {
    "ACK": "`a.largest`, `a.delay`, `ranges_acked a`, `counts_of a.ecn` (`ack_meaning`).",
    "RESET_STREAM": "`r.id`, `r.error_code`, `r.final_offset` (`reset_meaning`).",
    "STOP_SENDING": "`s.id`, `s.error_code` (`stop_meaning`).",
    "CRYPTO": "`c.offset`, `c.bytes` (`crypto_meaning`).",
    "NEW_TOKEN": "`t.token` (`token_meaning`).",
    "STREAM": "`flag s.fin`, `s.id`, `s.offset`, `s.bytes` (`stream_meaning`).",
    "MAX_DATA": "`n`.",
    "MAX_STREAM_DATA": "`id`, `offset`.",
    "MAX_STREAMS": "`dir_number dir`, `count`.",
    "DATA_BLOCKED": "`offset`.",
    "STREAM_DATA_BLOCKED": "`id`, `offset`.",
    "STREAMS_BLOCKED": "`dir_number dir`, `limit`.",
    "NEW_CONNECTION_ID": "`n.sequence`, `n.retire_prior_to`, `n.id`, `n.reset_token` (`new_id_meaning`).",
    "RETIRE_CONNECTION_ID": "`sequence`.",
    "PATH_CHALLENGE": "`n`.",
    "PATH_RESPONSE": "`n`.",
    "CONNECTION_CLOSE":
        "`code`, `type_or_zero ty`, `reason` (`connection_close`). `code`, `reason` (`application_close`).",
    "DATAGRAM": "`d.bytes` (`datagram_meaning`).",
    "ACK_FREQUENCY": "`f.sequence`, `f.ack_eliciting_threshold`, `f.request_max_ack_delay`, `f.reordering_threshold`"
        " (`frequency_meaning`).",
}
RANGES = (
    "ACK Range Count counts the ranges after the first (`Blocks`), which ends at Largest Acknowledged; First ACK"
    " Range and ACK Range Length are a range's greatest number less its least (`AreBlocks`), Gap the least of the"
    " range before, less 2, less the greatest of the next (`AreBelow`). None goes below 0.")
BEGINNING = [
    "## Frames", "",
    "A frame is its type, in any width or, if `strict`, the shortest, and its row's fields one after another"
    " (`IsFrame`, crates/quic_frame_fields/specs/Payload.antt; `IsField`, crates/quic_frame_fields/specs/Field.antt);"
    " a payload is frames to its end (`AreFrames`). There are no types without a row. What is `Implied` has no bytes.",
    "",
    "Rows are those of crates/quic_frame_fields/specs/Table.antt (`rows`, by type). Beneath a figure are the values"
    " in the code, by `meaning_of` or the definition in brackets.",
    ""]


def several(numbers):
    """Numbers of types, as a range if they are one."""
    first, last = min(numbers), max(numbers)
    if len(numbers) == last - first + 1 > 1:
        return f"{first:#04x}..{last:#04x}"
    return ", ".join(f"{number:#04x}" for number in sorted(numbers))


def distinguished_by(some, types):
    """How some types differ from the others: by a bit, else by their numbers."""
    for bit in (1, 2, 4) if len(types) > 2 else ():
        those = {number for number in types if number & bit}
        if some in (those, types - those):
            return f"{'with' if some == those else 'without'} type bit {bit:#04x}"
    return f"in type {several(some)}"


def all_lines(frame):
    return [line for field in frame["fields"][1:] for line in lines_of(field)]


def types_with(group, kind):
    """By the names of fields of a kind, by their values, the types that have them."""
    found = collections.defaultdict(lambda: collections.defaultdict(set))
    for frame in group:
        for field in frame["fields"]:
            if field["kind"] == kind:
                found[field["name"]][field.get("value")].add(frame["type"])
    return found


def implied_notes(group, types):
    """What has no bytes in any type."""
    units = {field["name"]: field.get("unit", "") for field in group[0]["fields"] if field["kind"] == "implied"}
    for name, values in types_with(group, "implied").items():
        if set().union(*values.values()) != types:
            continue
        meant = dict(part.split(" ", 1) for part in units[name].split(", ")) if ", " in units[name] else {}
        found = {value: distinguished_by(some, types) for value, some in values.items()}
        first = [f"{value}{f' ({meant[str(value)]})' if meant else ''} {by}" for value, by in found.items()
                 if not by.startswith("without")]
        others = [f"else {value}" for value, by in found.items() if by.startswith("without")]
        yield f"{name} (`Implied`) is {', '.join(first + others)}."


def notes(group, optional):
    """What the figure of frames can't say."""
    types, fields = {frame["type"] for frame in group}, group[0]["fields"]
    for line, some in optional.items():
        name = line.strip("[]").split(" (")[0]
        other = "".join(f", else {value} (`Implied`)" for value in types_with(group, "implied").get(name, ()))
        yield f"{name} is present {distinguished_by(some, types)}{other}."
    yield from implied_notes(group, types)
    for name, values in types_with(group, "rest").items():
        yield f"{name} goes to the payload's end (`Rest`) {distinguished_by(values[None], types)}."
    for field in fields:
        if field["kind"] == "ranges":
            yield RANGES
        if "at_most" in field:
            names = [fields[index]["name"] for index in field["at_most"].values()]
            yield f"{names[0]} is at most {names[1]} (`Ordered`)."
        if "max" in field:
            yield f"{field['name']} is at most {power(field['max'])} by RFC 9000, which `Rules::RFC` checks."


def with_counts(lines, have, group):
    """Lines with the three counts of an ACK, which one type has, as one; the three."""
    counts = [line for line in lines if line.endswith(" Count (i)") and len(have[line]) < len(group)]
    if not counts:
        return lines, have, []
    at = lines.index(counts[0])
    return [*lines[:at], COUNTS, *lines[at + 3:]], {**have, COUNTS: have[counts[0]]}, counts


def frame_figures(name, group):
    """The figures of the frames of one name. Those with fewer fields have some of the others' lines, in this order."""
    longest = max(map(all_lines, group), key=len)
    have = {line: {frame["type"] for frame in group if line in all_lines(frame)} for line in longest}
    assert all(all_lines(frame) == [it for it in longest if frame["type"] in have[it]] for frame in group), name
    lines, have, counts = with_counts(longest, have, group)
    optional = {line: have[line] for line in lines if len(have[line]) < len(group)}
    types = several({frame["type"] for frame in group})
    found = figure(f"{name} Frame", [
        f"Type (i) = {types}", *(f"[{line.strip('[]')}]" if line in optional else line for line in lines)])
    for field in group[0]["fields"]:
        if field["kind"] == "ranges":
            found += figure("ACK Range", [f"{number['name']} (i)" for number in field["numbers"][2:]])
    found += figure("ECN Counts", counts) if counts else []
    text = " ".join([MEANINGS.get(name, ""), *notes(group, optional)]).strip()
    return found + [text, ""] * bool(text)


def page(formats):
    """All frames, in the order of their types."""
    yield from BEGINNING
    groups = collections.defaultdict(list)
    for frame in formats["frames"]:
        groups[frame["name"]].append(frame)
    for name, group in groups.items():
        yield from [f"### {name} ({section_of(group[0]['section'])})", ""]
        yield from frame_figures(name, group)
