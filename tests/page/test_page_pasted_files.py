"""Files and frames that are pasted into the page as text: in hexadecimal, and as dumps."""
from __future__ import annotations

import subprocess

from ..support.formats.frames import write_refusal, write_reply
from ..support.formats.images import image_of
from ..support.formats.journal_records import BY_HAND
from ..support.formats.log_file import log_image
from ..support.library.call_cases import Chance
from ..support.page.page_file_case import FileCase
from ..support.page.page_paste import LINES, PasteCase
from ..support.page.page_values import IKSN, upper
from ..support.standards.dukpt import iksn_of, registers_at
from ..vectors.test_ciphers import vectors

# Commands that print dumps.
DUMPS = (["od", "-A", "x", "-t", "x1"], ["od", "-v", "-A", "x", "-t", "x1z"])


def seen(data: bytes) -> str:
    """Bytes as characters, as dumps have them."""
    return "".join(chr(it) if 32 <= it < 127 else "." for it in data)


def lines_of(data: bytes) -> list[tuple[int, bytes]]:
    """The lines of a dump: their offsets and bytes."""
    return [(at, data[at : at + 16]) for at in range(0, len(data), 16)]


def xxd(data: bytes) -> str:
    return "".join(f"{at:08x}: {line.hex(' ', -2):39}  {seen(line)}\n"
                   for at, line in lines_of(data))


def hexdump(data: bytes) -> str:
    """As `hexdump -C`; a line that is that before it is left out."""
    lines, last = [], b""
    for at, line in lines_of(data):
        halves = f"{line[:8].hex(' '):23}  {line[8:].hex(' '):23}"
        lines.append("*" if line == last else f"{at:08x}  {halves}  |{seen(line)}|")
        last = line
    shown = [it for at, it in enumerate(lines) if it != "*" or lines[at - 1] != "*"]
    return "\n".join([*shown, f"{len(data):08x}"])


class TestFiles(PasteCase, FileCase):
    """Images, logs and journals that are pasted as text are shown as their files are."""

    def files(self) -> dict[str, bytes]:
        chance = Chance(self.chance)
        serial = chance.usables(1)[0]
        image = image_of(registers_at(chance.keys(1)[0], iksn_of(serial), serial - iksn_of(serial)))
        log = log_image([it.to_bytes(10, "big") for it in chance.usables(5)], 8)
        return {"image": image, "log": log, "journal": bytes.fromhex(BY_HAND)}

    def pasted(self, text: str, kind: str) -> str:
        self.set(frame_file_kind=kind)
        self.set(file_text=text)
        return self.text("file-found")

    def test_pasted(self) -> None:
        for kind, data in self.files().items():
            (dropped,) = self.drop(data, kind=kind)
            shown = self.text("file-found").removeprefix("0.bin")
            self.assertEqual((dropped.kind, dropped.fault), (kind, ""))
            self.assertEqual(self.value("file-text"), "")
            for text in (upper(data), self.dirty_hex(data, LINES), data.hex(" ", 2)):
                found = self.pasted(text, kind)
                self.assertEqual(found.removeprefix("Pasted text"), shown, repr(text))
        self.assert_quiet()

    def test_dumps(self) -> None:
        """What `hexdump -C`, `xxd` and `od` print of a file; where lines repeat they are left out."""
        path = self.folder() / "it.bin"
        for kind, data in self.files().items():
            path.write_bytes(data)
            self.drop(data, kind=kind)
            shown = self.text("file-found").removeprefix("0.bin")
            printed = [subprocess.run([*command, path], capture_output=True, text=True,
                                      check=True).stdout for command in DUMPS]
            for text in (*printed, xxd(data), hexdump(data), hexdump(data).replace("\n", "\r\n")):
                found = self.pasted(text, kind)
                self.assertEqual(found.removeprefix("Pasted text"), shown, text)
        frames = write_refusal(IKSN + 1, 5) * 3
        for text in (xxd(frames), hexdump(frames)):
            self.set(frame_bytes=text)
            self.assertEqual(self.text("frame-found").count("reason 5"), 3)
        self.assert_quiet()

    def test_no_dumps(self) -> None:
        """Digits that look like a dump nearly are digits: zeros, and a dump with a wrong offset."""
        for text, words in (("00000000", "4 bytes"), ("00000000 00", "5 bytes"),
                            ("00000000 00\n00000002", "9 bytes")):
            self.set(frame_file_kind="log")
            self.set(file_text=text)
            self.assertIn(words, self.text("file-text-fault"), text)

    def test_other_dumps(self) -> None:
        """Offsets of four digits, offsets that do not begin at 0, and octal ones."""
        frames = write_refusal(IKSN + 1, 5) * 3
        path = self.folder() / "it.bin"
        path.write_bytes(frames)
        octal = subprocess.run(["od", "-t", "x1", path], capture_output=True, text=True,
                               check=True).stdout
        rows = [(f"{at:04x}", it) for at, it in lines_of(frames)]
        for text in (
                "".join(f"{at}: {it.hex(' ', -2):39}  {seen(it)}\n" for at, it in rows),
                "".join(f"{at}  {it.hex(' ')}\n" for at, it in rows),
                "".join(f"{at}   {it.hex(' '):47}   {seen(it)}\n" for at, it in rows),
                "".join(f"{at:08x}: {it.hex(' ', -2):39}  {seen(it)}\n"
                        for at, it in ((at + 0x120, it) for at, it in lines_of(frames))),
                octal):
            self.set(frame_bytes=text)
            self.assert_shown({"frame-bytes-fault": ""}, text)
            self.assertEqual(self.text("frame-found").count("reason 5"), 3, text)
        self.assert_quiet()

    def test_words(self) -> None:
        """Words of two bytes are refused in words, and what may be an offset of a line is told."""
        image = self.files()["image"]
        path = self.folder() / "it.bin"
        path.write_bytes(image)
        for kind in ("x2", "o2"):
            text = subprocess.run(["od", "-t", kind, path], capture_output=True, text=True,
                                  check=True).stdout
            self.set(file_text=text)
            self.assertRegex(self.text("file-text-fault"), "^This dump has words of two bytes", text)
        frames = write_refusal(IKSN + 1, 5) * 3
        line = f"000d {frames[2:15].hex(' ')}\n"
        self.set(frame_bytes=line)
        self.assert_shown({"frame-bytes-fault": "", "frame-bytes-note": ""})
        self.set(frame_bytes=line * 3)
        self.assert_shown({
            "frame-bytes-fault": "", "frame-bytes-note":
            "The first four digits of each line are read as data, and not as an offset"})

    def test_damage(self) -> None:
        """Damage of what is pasted stands beside the text, with its bytes."""
        self.pasted(upper(self.files()["log"])[:-2], "log")
        self.assertRegex(self.text("file-text-fault"), r"^Pasted text, as a log: Bytes? \d+")
        self.assert_shown({"file-found": "", "frame-file-fault": ""})
        self.pasted("0", "log")
        self.assert_shown({"file-found": "",
                           "file-text-fault": "An odd number of digits, 1: no whole bytes."})

    def test_either(self) -> None:
        """A file takes the place of the text, and the text that of a file."""
        files = self.files()
        self.pasted(upper(files["log"]), "guess")
        (dropped,) = self.drop(files["image"])
        self.assertEqual((dropped.kind, self.value("file-text")), ("image", ""))
        self.assertIn("Pasted text", self.pasted(upper(files["journal"]), "journal"))
        self.assertNotIn("register", self.text("file-found"))
        self.assertEqual(self.pasted("", "guess"), "")

    def test_replies(self) -> None:
        """Frames too, pasted into their own field by the keyboard."""
        _, key = next(vectors("dukpt.txt"))
        frame = upper(write_reply(bytes.fromhex(key), IKSN + 1, "00"))
        self.type("frame-bytes", "00:16 " + frame[4:])
        self.assertIn("right under the key", self.text("frame-found"))
