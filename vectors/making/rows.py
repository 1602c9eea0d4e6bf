"""The lines of a table: groups of tests, which begin with `== TITLE | RFC NNNN SECTION`, and rows of columns."""
import pathlib
import re
from typing import NamedTuple

TABLES = pathlib.Path(__file__).parent.parent / "tables"
CODES = {
    "FEE": "FRAME_ENCODING_ERROR",
    "PV": "PROTOCOL_VIOLATION",
    "TPE": "TRANSPORT_PARAMETER_ERROR",
    "FCE": "FLOW_CONTROL_ERROR",
    "SLE": "STREAM_LIMIT_ERROR",
    "SSE": "STREAM_STATE_ERROR",
    "CBE": "CRYPTO_BUFFER_EXCEEDED",
    "DROP": "DROP",
}
# Who reads some inputs differently from the RFC, on purpose.
DEPARTING = "quinn-proto and quic-wire"
SECTION = re.compile(r" \[((?:RFC|ACK)[^]]*)\]$")


class Group(NamedTuple):
    """A group of tests: its title, and the document and section for those that name none."""

    title: str
    rfc: str


class Row(NamedTuple):
    """A line of a table; its columns are those after the id and before the sentence."""

    group: Group
    id: str
    columns: list
    sentence: str
    rfc: str

    def test(self, **more):
        return {"id": self.id, "comment": self.sentence, "rfc": self.rfc} | more


def rows(name):
    """The rows of a table."""
    group = None
    for line in (TABLES / f"{name}.txt").read_text(encoding="utf-8").splitlines():
        if line.startswith("== "):
            group = Group(*line[3:].split(" | "))
        elif line and not line.startswith("#"):
            ident, *columns, sentence = (column.strip() for column in line.split(" | "))
            where = SECTION.search(sentence)
            yield Row(group, ident, columns, SECTION.sub("", sentence), where[1] if where else group.rfc)


def valid(by, read):
    return {"by": by, "result": "valid", "read": read}


def invalid(by, codes):
    return {"by": by, "result": "invalid", "errors": [CODES[code] for code in codes]}


def answers(verdict, rfc, read):
    """The allowed answers of a verdict: `valid`, `invalid CODE or CODE`, `open: valid or invalid CODE` (the RFC leaves
    it open), `departs: VERDICT; library VERDICT` (the RFC's answer, then that of DEPARTING)."""

    def answer(words, by):
        kind, _, codes = words.partition(" ")
        return valid(by, read) if kind == "valid" else invalid(by, codes.split(" or "))

    if found := re.fullmatch(r"open: (valid) or (invalid .*)", verdict):
        return [answer(found[1], f"{rfc}, which leaves it open"), answer(found[2], f"{rfc}, which leaves it open")]
    if found := re.fullmatch(r"departs: (.*); library (.*)", verdict):
        return [answer(found[1], rfc), answer(found[2], DEPARTING)]
    return [answer(verdict, rfc)]


def with_answers(test, allowed):
    result = allowed[0]["result"] if len(allowed) == 1 else "choice"
    return test | {"result": result, "answers": allowed}
