"""What each operation is given and gives, and the JSON schema of the files."""
from __future__ import annotations

import json
from dataclasses import dataclass
from typing import Any, Mapping, Optional, Sequence

Schema = Mapping[str, Any]

DIALECT = "https://json-schema.org/draft/2020-12/schema"
TEXT: Schema = {"type": "string"}
NUMBER: Schema = {"type": "integer", "minimum": 0}
FLAG: Schema = {"type": "boolean"}
DIGITS: Schema = {"type": "string", "pattern": "^[0-9]+$"}


def octets(*sizes: int) -> Schema:
    """Bytes in upper-case hexadecimal: of any number, or of one of these."""
    if not sizes:
        return {"type": "string", "pattern": "^([0-9A-F]{2})*$"}
    ways = "|".join(f"[0-9A-F]{{{2 * size}}}" for size in sizes)
    return {"type": "string", "pattern": f"^({ways})$"}


# An input may be of a wrong length: the case is to be refused then.
BYTES = octets()
REGISTERS: Schema = {
    "type": "array", "minItems": 21, "maxItems": 21,
    "items": {"anyOf": [octets(16), {"type": "null"}]}}


@dataclass(frozen=True)
class Operation:
    """The members of its inputs and of its outputs, with the schema of each."""

    inputs: Mapping[str, Schema]
    outputs: Mapping[str, Schema]


def inputs(names: str) -> Mapping[str, Schema]:
    """Inputs by their names: what is no text and no number is bytes."""
    kinds = {"pin": TEXT, "pan": TEXT, "header": TEXT, "code": TEXT, "skip": NUMBER,
             "count": NUMBER, "amount": NUMBER, "reason": NUMBER}
    return {name: kinds.get(name, BYTES) for name in names.split()}


KSN, KEY, BLOCK, FRAME, IMAGE = octets(10), octets(16), octets(8), octets(), octets(431)
KEYS = {"key": KEY, "pin_key": KEY, "request_mac_key": KEY, "response_mac_key": KEY}

OPERATIONS: Mapping[str, Operation] = {
    "initial_key": Operation(inputs("bdk iksn"), {"key": KEY}),
    "derive": Operation(inputs("bdk ksn"), KEYS),
    "derive_from_initial": Operation(inputs("initial_key ksn"), KEYS),
    "usable": Operation(inputs("ksn"), {"usable": FLAG}),
    "next_number": Operation(inputs("ksn"), {"ksn": KSN}),
    "registers": Operation(inputs("initial_key ksn"), {"registers": REGISTERS}),
    "walk": Operation(inputs("bdk iksn skip count"),
                      {"sha256": octets(32), "last_ksn": KSN, "last_key": KEY}),
    "check_value": Operation(inputs("key"), {"kcv": octets(3)}),
    "cmac_check_value": Operation(inputs("key"), {"kcv": octets(5)}),
    "tdes_encrypt": Operation(inputs("key block"), {"block": BLOCK}),
    "tdes_decrypt": Operation(inputs("key block"), {"block": BLOCK}),
    "cbc_encrypt": Operation(inputs("key iv data"), {"data": BYTES}),
    "cbc_decrypt": Operation(inputs("key iv data"), {"data": BYTES}),
    "retail_mac": Operation(inputs("key message"), {"mac": BLOCK}),
    "cmac": Operation(inputs("key message"), {"mac": BLOCK}),
    "pin_block": Operation(inputs("pin pan"), {"block": BLOCK}),
    "pin_of_block": Operation(inputs("block pan"), {"pin": DIGITS}),
    "encrypt_pin": Operation(inputs("key pin pan"), {"block": BLOCK}),
    "decrypt_pin": Operation(inputs("key block pan"), {"pin": DIGITS}),
    "wrap": Operation(inputs("kbpk header key padding"), {"block": TEXT}),
    "unwrap": Operation({"kbpk": BYTES, "block": TEXT}, {"header": TEXT, "key": octets(16, 24)}),
    "payment_request": Operation(inputs("key ksn pan pin amount"), {"frame": FRAME}),
    "read_request": Operation(inputs("frame"), {"ksn": KSN, "pan": DIGITS, "amount": NUMBER,
                                                "block": BLOCK, "mac": BLOCK}),
    "check_request": Operation(inputs("key frame"), {}),
    "request_pin": Operation(inputs("key frame"), {"pin": DIGITS}),
    "reply": Operation(inputs("key ksn code"), {"frame": FRAME}),
    "read_reply": Operation(inputs("frame"), {"ksn": KSN, "code": DIGITS}),
    "check_reply": Operation(inputs("key ksn frame"), {}),
    "refusal": Operation(inputs("ksn reason"), {"frame": FRAME}),
    "read_refusal": Operation(inputs("frame"), {"ksn": KSN, "reason": NUMBER}),
    "frame_length": Operation(inputs("bytes"), {"count": NUMBER}),
    "load": Operation(inputs("initial_key iksn"), {"image": IMAGE}),
    "image_at": Operation(inputs("initial_key ksn"), {"image": IMAGE}),
    "number": Operation(inputs("image"), {"ksn": KSN}),
    "take": Operation(inputs("image"), {"image": IMAGE, "key": KEY, "ksn": KSN}),
    "reload": Operation(inputs("image initial_key iksn"), {"image": IMAGE}),
    "reversal": Operation(inputs("bdk ksn reversed"), {"frame": FRAME}),
    "read_reversal": Operation(inputs("frame"), {"ksn": KSN, "reversed": KSN, "mac": BLOCK}),
    "read_reversal_reply": Operation(
        inputs("frame"), {"ksn": KSN, "reversed": KSN, "state": NUMBER, "mac": BLOCK}),
    "check_reversal_reply": Operation(inputs("bdk ksn reversed frame"), {"state": NUMBER}),
}


def members(of: Mapping[str, Schema], required: Optional[Sequence[str]] = None) -> Schema:
    """An object with these members and no other, all of which are required, or some."""
    return {"type": "object", "properties": dict(of), "additionalProperties": False,
            "required": list(of if required is None else required)}


def group_schema(name: str, operation: Operation) -> Schema:
    """A group of an operation. What its tests share stands in the group's inputs."""
    given = members(operation.inputs, [])
    test = {"tcId": {"type": "integer", "minimum": 1}, "comment": TEXT,
            "flags": {"type": "array", "items": TEXT, "uniqueItems": True}, "inputs": given}
    valid = members({**test, "result": {"const": "valid"}, "outputs": members(operation.outputs)})
    invalid = members({**test, "result": {"const": "invalid"}, "fault": TEXT})
    return members({
        "operation": {"const": name}, "comment": TEXT, "section": TEXT, "inputs": given,
        "tests": {"type": "array", "minItems": 1, "items": {
            "if": {"properties": {"result": {"const": "valid"}}}, "then": valid, "else": invalid}}})


def schema() -> Schema:
    """The schema of a file. It chooses a group's form by its operation."""
    note = members({"description": TEXT, "section": TEXT})
    forms = [{"if": {"properties": {"operation": {"const": name}}},
              "then": {"$ref": f"#/$defs/{name}"}} for name in OPERATIONS]
    top = members({
        "algorithm": TEXT, "schema": TEXT, "generatorVersion": TEXT, "numberOfTests": NUMBER,
        "header": {"type": "array", "items": TEXT},
        "notes": {"type": "object", "additionalProperties": note},
        "testGroups": {"type": "array", "minItems": 1, "items": {
            "properties": {"operation": {"enum": list(OPERATIONS)}}, "allOf": forms}}})
    return {"$schema": DIALECT, "title": "Test vectors of TDES DUKPT", **top,
            "$defs": {name: group_schema(name, it) for name, it in OPERATIONS.items()}}


def schema_text() -> str:
    """The schema, with each operation on a line of its own."""
    front = {name: value for name, value in schema().items() if name != "$defs"}
    members = [f"  {json.dumps(name)}: {json.dumps(value)}" for name, value in front.items()]
    forms = [f"    {json.dumps(name)}: {json.dumps(value)}"
             for name, value in schema()["$defs"].items()]
    members.append('  "$defs": {\n' + ",\n".join(forms) + "\n  }")
    return "{\n" + ",\n".join(members) + "\n}\n"
