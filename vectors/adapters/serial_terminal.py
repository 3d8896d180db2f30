"""An example of an adapter: a terminal on a serial line. In the folder of the vectors:

    python3 -m dukpt_check --area derivation python3 adapters/serial_terminal.py /dev/ttyUSB0

The terminal here has a test command `KEY initial-key key-serial-number`. It answers with the
transaction key and its three variants, or with `?` where it refuses. For another terminal change
`ask`, and what is done with its answer. A host on a socket is asked likewise.
"""
from __future__ import annotations

import json
import os
import sys
import termios
import tty

KEYS = ("key", "pin_key", "request_mac_key", "response_mac_key")


def ask(line: int, initial_key: str, ksn: str) -> str:
    """Has the terminal derive keys. A line of either side ends with a carriage return."""
    os.write(line, f"KEY {initial_key} {ksn}\r".encode())
    said = b""
    while not said.endswith(b"\r"):
        said += os.read(line, 256)
    return said.decode("ascii").strip()


def main() -> None:
    """Answers each line of standard input by the terminal."""
    line = os.open(sys.argv[1], os.O_RDWR | os.O_NOCTTY)
    tty.setraw(line)
    modes = termios.tcgetattr(line)
    modes[4] = modes[5] = termios.B115200
    termios.tcsetattr(line, termios.TCSANOW, modes)
    for case in map(json.loads, sys.stdin):
        answer = {"tcId": case["tcId"]}
        if case["operation"] != "derive_from_initial":
            answer["unsupported"] = True
        elif (said := ask(line, case["initial_key"], case["ksn"])) == "?":
            answer["error"] = "the terminal refuses"
        else:
            answer.update(zip(KEYS, said.split()))
        print(json.dumps(answer), flush=True)


if __name__ == "__main__":
    main()
