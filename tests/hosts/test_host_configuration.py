"""What a host over PostgreSQL reads of a configuration with keys in the clear: the faults of the
documents, and no other."""
from __future__ import annotations

import sys

from ..commands.test_configurations import TABLE
from ..support.case import Case
from ..support.formats import configuration
from ..support.service.host import HOST

sys.path.insert(0, str(HOST.parent))
from dukpt_host.configuration import CLEAR, Refused, read_configuration  # noqa: E402


class Configurations(Case):
    def fault(self, data: bytes) -> str:
        """The fault of a configuration. One that has none is read as the documents have it."""
        path = self.home / "it.toml"
        path.write_bytes(data)
        try:
            found = read_configuration(str(path), CLEAR)
        except Refused as why:
            return str(why)
        wanted = configuration.read(data)
        self.assertEqual(bytes.fromhex(found.zone), wanted.zone)
        self.assertEqual({prefix: bytes.fromhex(key) for prefix, key in found.keys.items()},
                         {it.prefix: it.key for it in wanted.bdks})
        self.assertEqual(found.cards, [(it.pan.encode(), it.pin.encode(), it.limit)
                                       for it in wanted.cards])
        self.assertNotIn(wanted.cards[0].pin if wanted.cards else "KEY", repr(found))
        return ""

    def test_faults(self) -> None:
        self.home = self.folder()
        for data, fault in TABLE:
            self.assertEqual(self.fault(data), f"config: {fault}" if fault else "", data[-200:])
        for data, fault in ((b"#" * (1 << 20) + b"\n", "too long"), (b"\xff", "not TOML")):
            self.assertEqual(self.fault(data), f"config: {fault}")
        with self.assertRaisesRegex(Refused, "^config: cannot read$"):
            read_configuration(str(self.home / "none"), CLEAR)
