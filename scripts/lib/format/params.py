"""The figures of transport parameters (RFC 9000, section 18)."""
from lib.format.figures import columns, figure, lines_of, section_of, width_of
from lib.tables.formats import bound_of

LISTS = [
    "## Transport parameters", "", "### Lists (18)", "",
    *figure("Transport Parameters", ["Transport Parameter (..) ..."]),
    *figure("Transport Parameter", [
        "Transport Parameter ID (i)", "Transport Parameter Length (i)", "Transport Parameter Value (..)"]),
    "`AreEntries`, `IsEntry`, crates/quic_params/specs/Entry.antt. Entries without a row are ignored (`Accepts`),"
    " repeated ones rejected unless they may repeat (`IsRepeat`). By RFC 9000 none with a row but `reserved` may"
    " repeat, and integers may be in any width (`as_rfc`, crates/quic_params/specs/Options.antt); the table is for"
    " quinn-proto's"
    " reading, `as_quinn`.", "",
    "### Parameters (18.2)", ""]
ROWS = (
    "Rows (`row_of`, crates/quic_params/specs/Table.antt) have these names except `ReservedTransportParameter`,"
    " `MinAckDelayDraft07`. Values (`IsEncoded`, crates/quic_params/specs/Value.antt) (i) are in the shortest width"
    " unless in any; (..) are skipped. A missing one without a default is absent (`default_of`). `IsValid`,"
    " crates/quic_params/specs/Meaning.antt, says what must be, with the names of `value_of`,"
    " crates/quic_params/specs/Record.antt. Numbers 31 * N + 27 are reserved (`IsReserved`,"
    " crates/quic_params/specs/Reserved.antt).")
ADDRESS = (
    "`AreAddressFields`, crates/quic_params/specs/Address.antt. An address and its port that are 6 or 18 zeros are"
    " absent (`IsV4`, `IsV6`), but not both (`IsAddress`). There is no flow label, no scope (`IsV6`)."
    " `AreAddressFields` has an empty Connection ID too, which isn't valid (`IsValid`).")


def value_of(parameter):
    """What a value is."""
    if parameter["kind"] == "preferred_address":
        return "Preferred Address"
    if parameter["kind"] != "number":
        return f"({width_of(parameter)})"
    return "(i), any width" if parameter["any_width"]["quinn_proto"] else "(i)"


def rules(parameter, address):
    """What a value must be, who must send it, whether it may repeat."""
    if "max_of" in parameter:
        yield f"at most {parameter['max_of']['times']} times {parameter['max_of']['parameter']}"
    elif "min" in parameter:
        yield f"at least {parameter['min']}"
    elif "max" in parameter:
        yield bound_of(parameter)
    if parameter["kind"] == "preferred_address":
        yield from (f"{part['name']} nonempty" for part in address if part["kind"] == "id" and part["bytes"][0] > 0)
    if parameter["senders"] == ["server"]:
        yield "from a server"
    if parameter["repeat"]["quinn_proto"]:
        yield "may repeat"


def page(formats):
    """Lists of parameters, and each parameter."""
    yield from LISTS
    rows = [["ID", "Name", "Value", "Default", "Must be"]]
    for one in formats["parameters"]:
        section = section_of(one["section"])
        must = ", ".join(rules(one, formats["preferred_address"])) + f" ({section})" * (section != "18.2")
        rows.append([f"{one['id']:#04x}", one["name"], value_of(one), str(one.get("default", "")), must.strip()])
    yield from [*columns(rows), ROWS, "", "### Preferred Address (18.2)", ""]
    lines = [line for part in formats["preferred_address"] for line in lines_of(part)]
    yield from [*figure("Preferred Address", lines), ADDRESS]
