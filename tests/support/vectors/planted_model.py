"""An adapter over this bench's own ciphers and formats, in a folder, in which a mistake is planted:
the report of vectors/dukpt_check has to lead to it."""
from __future__ import annotations

import shutil
import sys
from pathlib import Path
from typing import Optional

from ..program import ROOT, Word

STANDARDS = ROOT / "tests" / "support" / "standards"
MODULES = ("des", "dukpt", "macs", "pin_blocks")
ADAPTER = '''"""The bench's own ciphers and formats as an adapter."""
import json
import sys

from planted import des, dukpt, macs, pin_blocks


def keys(initial, ksn):
    if not dukpt.usable(dukpt.counter_of(int.from_bytes(ksn, "big"))):
        raise ValueError("NotUsable")
    key = dukpt.key_of(sized(initial, 16), int.from_bytes(sized(ksn, 10), "big"))
    return {"key": key, "pin_key": dukpt.pin_key(key), "request_mac_key": dukpt.request_key(key),
            "response_mac_key": dukpt.response_key(key)}


def initial(bdk, iksn):
    return dukpt.initial_key(sized(bdk, 16), dukpt.iksn_of(int.from_bytes(sized(iksn, 10), "big")))


def initial_key(bdk, iksn):
    if dukpt.counter_of(int.from_bytes(iksn, "big")):
        raise ValueError("NotInitial")
    return {"key": initial(bdk, iksn)}


def registers(initial_key, ksn):
    number = int.from_bytes(sized(ksn, 10), "big")
    if not dukpt.usable(dukpt.counter_of(number)):
        raise ValueError("NotUsable")
    found = dukpt.registers_at(sized(initial_key, 16), dukpt.iksn_of(number),
                               dukpt.counter_of(number)).keys
    return {"registers": [key if any(key) else None for key in found]}


def next_number(ksn):
    number = int.from_bytes(sized(ksn, 10), "big")
    found = dukpt.next_counter(dukpt.counter_of(number))
    if found == dukpt.SPENT:
        raise ValueError("Spent")
    return {"ksn": (dukpt.iksn_of(number) + found).to_bytes(10, "big")}


def retail_mac(key, message):
    return {"mac": macs.retail_mac(sized(key, 16), sized(message, *range(1, 1 << 12)))}


def pin_block(pin, pan):
    if pin_blocks.fault_of(pin.encode(), pan.encode()):
        raise ValueError("no PIN or no PAN")
    return {"block": pin_blocks.pin_block(pin, pan).to_bytes(8, "big")}


def check_value(key):
    return {"kcv": des.encrypt_block(sized(key, 16, 24), bytes(8))[:3]}


def sized(data, *sizes):
    if len(data) not in sizes:
        raise ValueError("Length")
    return data


OPERATIONS = {
    "initial_key": initial_key, "derive": lambda bdk, ksn: keys(initial(bdk, ksn), ksn),
    "derive_from_initial": lambda initial_key, ksn: keys(initial_key, ksn),
    "registers": registers, "next_number": next_number, "retail_mac": retail_mac,
    "pin_block": pin_block, "check_value": check_value,
    "tdes_encrypt": lambda key, block: {
        "block": des.encrypt_block(sized(key, 16, 24), sized(block, 8))},
    "tdes_decrypt": lambda key, block: {
        "block": des.decrypt_block(sized(key, 16, 24), sized(block, 8))},
    "cbc_decrypt": lambda key, iv, data: {
        "data": des.cbc_decrypt(sized(key, 16, 24), sized(iv, 8),
                                sized(data, *range(0, 1 << 12, 8)))},
}


def shown(value):
    if isinstance(value, list):
        return [shown(it) for it in value]
    return value.hex() if isinstance(value, bytes) else value


for line in sys.stdin:
    case = json.loads(line)
    number, operation = case.pop("tcId"), case.pop("operation")
    if operation not in OPERATIONS:
        answer = {"unsupported": True}
    else:
        try:
            inputs = {name: value if name in ("pin", "pan") else bytes.fromhex(value)
                      for name, value in case.items()}
            answer = {it: shown(value) for it, value in OPERATIONS[operation](**inputs).items()}
        except Exception as why:
            answer = {"error": str(why)}
    print(json.dumps({"tcId": number, **answer}), flush=True)
'''


def planted(folder: Path, module: str = "", old: str = "", new: Optional[str] = None) -> list[Word]:
    """The command of the adapter in a folder, with a text of a module replaced by another one, or
    with a text of the adapter's own where no module is named."""
    package = folder / "planted"
    package.mkdir()
    (package / "__init__.py").write_text("")
    for name in MODULES:
        shutil.copy(STANDARDS / f"{name}.py", package)
    (folder / "adapter.py").write_text(ADAPTER)
    if new is not None:
        path = package / f"{module}.py" if module else folder / "adapter.py"
        text = path.read_text()
        if text.count(old) != 1:
            raise AssertionError(f"{path.name} has {text.count(old)} times {old!r}")
        path.write_text(text.replace(old, new))
    return [sys.executable, folder / "adapter.py"]
