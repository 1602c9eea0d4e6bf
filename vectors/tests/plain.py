#!/usr/bin/env python3
"""A driver of the tests with the plain reader and writer of tests/reader, which answers each of them as the RFC does.
"""
import json
import sys

import ciphers
from reader.frames import read_frames, shortest
from reader.input import DROP, Input, Rejected, varint
from reader.layer import answer_negotiation, is_reset, nonce, retry_pseudo, write_information, write_reset
from reader.packets import expand, number_length, protect, read_datagram, unprotect, write_header
from reader.parameters import read_parameters, write_parameters


def read_varint(given):
    data = Input(given, DROP)
    return f"{data.integer()} {data.at}"


def cipher(form, context, data):
    try:
        return ciphers.call(form, context, data)
    except ciphers.NotAuthentic as fault:
        raise Rejected(DROP) from fault


def call(form, context, text):
    """What a single call returns."""
    data = b"" if form == "varint-write" else bytes.fromhex(text)
    if form == "number-expand":
        largest = -1 if context["largest"] == "-" else int(context["largest"])
        return str(expand(int(context["written"]), int(context["bits"]), largest))
    if form == "number-length":
        return str(number_length(int(context["number"]), int(context["acked"].replace("-", "0"))))
    if form in ciphers.CALLS:
        return cipher(form, context, data)
    calls = {
        "params": lambda: read_parameters(data, context),
        "params-write": lambda: write_parameters(read_parameters(data, context)),
        "shortest": lambda: shortest(data, context),
        "varint-read": lambda: read_varint(data),
        "varint-write": lambda: varint(int(text)).hex(),
        "unprotect": lambda: unprotect(data, context),
        "protect": lambda: protect(data, context),
        "header-write": lambda: write_header(context),
        "nonce": lambda: nonce(context),
        "retry-pseudo": lambda: retry_pseudo(data, context),
        "version-information-write": lambda: write_information(context),
        "reset-write": lambda: write_reset(context),
        "reset-read": lambda: is_reset(data, context),
        "negotiation-answer": lambda: answer_negotiation(data, context),
    }
    return calls[form]()


def told(value):
    """A value as the tests have it."""
    if isinstance(value, dict):
        return {name: told(one) for name, one in value.items()}
    if isinstance(value, list):
        return [told(one) for one in value]
    return value.hex() if isinstance(value, bytes) else str(value)


def answer(line):
    form, words, text = line.split()
    context = dict(word.split("=") for word in words.split(",")) if words != "-" else {}
    text = text.replace("-", "")
    if form in ("payload", "datagram"):
        items, at, code = (read_frames if form == "payload" else read_datagram)(bytes.fromhex(text), context)
        if code:
            return f"invalid {code} {json.dumps({'at': at, 'before': told(items)})}"
        return f"valid {json.dumps(told(items))}"
    try:
        return f"valid {json.dumps(told(call(form, context, text)))}"
    except Rejected as fault:
        return f"invalid {fault.args[0]}"


if __name__ == "__main__":
    for line in sys.stdin:
        print(answer(line), flush=True)
