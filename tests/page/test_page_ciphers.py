"""The panel "Ciphers and components": TDES by ECB and CBC, data of a request or a response, and keys of
components."""
from __future__ import annotations

from typing import Optional

from ..support.commands.everyday_rows import INITIAL
from ..support.library.call_cases import Chance
from ..support.page.page_case import PageCase
from ..support.page.page_values import BASE, IKSN, upper
from ..support.standards import many
from ..support.standards.des import cbc_encrypt, encrypt_block
from ..support.standards.dukpt import key_of, request_data_key
from ..support.standards.macs import cmac
from ..vectors.test_ciphers import data, vectors

CASES = 80


class TestTdes(PageCase):
    panel = "cipher"

    def test_vectors(self) -> None:
        self.set(tdes_mode="ecb")
        for key, clear, hidden in map(data, vectors("triple_des.txt")):
            if len(key) not in (16, 24):
                continue
            for way, given, wanted in (("encipher", clear, hidden), ("decipher", hidden, clear)):
                self.set(tdes_way=way, tdes_key=upper(key), tdes_data=given.hex(" "))
                self.assert_shown({"tdes-result": upper(wanted), "tdes-data-fault": ""})
        self.assert_quiet()

    def test_random(self) -> None:
        """One block and several, both ways, by ECB and CBC."""
        chance, count = Chance(self.chance), CASES * self.times
        keys, vectors_ = chance.tdes_keys(count), chance.bytes(count, 8)
        clear = chance.bytes(count, *range(8, 100, 8))
        hidden = many.chained(keys, vectors_, clear)
        fields = ["tdes-key", "tdes-iv", "tdes-data"]
        texts = [list(map(upper, keys)), list(map(upper, vectors_))]
        for way, given, wanted in (("encipher", clear, hidden), ("decipher", hidden, clear)):
            self.set(tdes_mode="cbc", tdes_way=way)
            self.assert_tried(fields, list(zip(*texts, map(upper, given))), ["tdes-result"],
                              [[upper(it)] for it in wanted])
        hidden = by_blocks(keys, clear)
        for way, given, wanted in (("encipher", clear, hidden), ("decipher", hidden, clear)):
            self.set(tdes_mode="ecb", tdes_way=way, tdes_iv="wrong")
            self.assert_tried(["tdes-key", "tdes-data"], list(zip(texts[0], map(upper, given))),
                              ["tdes-result"], [[upper(it)] for it in wanted])
        self.assertFalse(self.browser.run(
            "return document.getElementById('tdes-iv').checkVisibility();"))


def by_blocks(keys: list[bytes], texts: list[bytes]) -> list[bytes]:
    """Each block of each text, enciphered by itself."""
    pieces = [(key, text[at : at + 8]) for key, text in zip(keys, texts)
              for at in range(0, len(text), 8)]
    made = iter(many.encrypted([key for key, _ in pieces], [piece for _, piece in pieces]))
    return [b"".join(next(made) for _ in range(len(text) // 8)) for text in texts]


class TestData(PageCase):
    """Data under the keys of a number for them."""

    panel = "cipher"

    def test_sample(self) -> None:
        """The sample of ANSI X9.24-1:2009 annex A.4, both ways, and the same under the other key."""
        self.assert_shown({"data-result": "FC0D53B7EA1FDA9EE68AAF2E70D9B950", "data-as-text": ""})
        self.set(data_way="bytes", data_text="343031323334353637383930394439383700000000000000")
        self.assert_shown({"data-result": "FC0D53B7EA1FDA9EE68AAF2E70D9B9506229BE2AA993F04F"})
        self.set(data_way="decipher", data_text="FC0D53B7EA1FDA9EE68AAF2E70D9B9506229BE2AA993F04F")
        self.assert_shown({"data-result": "343031323334353637383930394439383700000000000000",
                           "data-as-text": "4012345678909D987......."})
        self.set(data_of_response=True, data_way="text", data_text="4012345678909D98")
        self.assert_shown({"data-result": "1FCC89AF66222F27B903898BB2BC8589"})
        self.set(set_ksn="FFFF9876543210E00002", data_of_request=True)
        key = request_data_key(key_of(bytes.fromhex(INITIAL), IKSN + 2))
        self.assert_shown({"data-result": upper(cbc_encrypt(key, bytes(8), b"4012345678909D98"))})
        self.assert_quiet()

    def test_random(self) -> None:
        """Keys of their own, initial vectors and whole blocks, both ways."""
        chance, count = Chance(self.chance), CASES * self.times
        keys, vectors_ = chance.bytes(count, 16), chance.bytes(count, 8)
        clear = chance.bytes(count, *range(8, 100, 8))
        hidden = many.chained(keys, vectors_, clear)
        for side in ("request", "response"):
            fields = [f"data-{side}", "data-iv", "data-text"]
            for way, given, wanted in (("bytes", clear, hidden), ("decipher", hidden, clear)):
                self.set(**{f"data_of_{side}": True, "data_way": way})
                self.assert_tried(fields, list(zip(*(map(upper, it) for it in (keys, vectors_, given)))),
                                  ["data-result"], [[upper(it)] for it in wanted])
        self.assert_quiet()

    def test_no_whole_blocks(self) -> None:
        for way, text, words in (
                ("text", "401234567", "Whole blocks of 8 bytes are wanted, and this text has 9."),
                ("text", "", "Whole blocks of 8 bytes are wanted, and this text has 0."),
                ("text", "\u20ac\u20ac\u20ac", "Whole blocks of 8 bytes are wanted, and this text has 9."),
                ("bytes", "00", "Whole blocks of 8 bytes are wanted, and here are 1 bytes."),
                ("decipher", "", "Whole blocks of 8 bytes are wanted, and here are 0 bytes.")):
            self.set(data_way=way, data_text=text)
            self.assert_shown({"data-result": "", "data-as-text": "", "data-text-fault": words})
        self.set(data_way="text", data_text="\u20ac\u20ac..")
        self.assertNotEqual(self.text("data-result"), "")
        self.set(data_iv="00")
        self.assert_shown({"data-result": "", "data-iv-fault": "A block has 16 digits, and here are 2."})


class TestComponents(PageCase):
    panel = "cipher"

    def test_random(self) -> None:
        """Two components and three: each with its check value and parity, and the key of all."""
        chance, count = Chance(self.chance), CASES * self.times
        cases, wanted = [], []
        for _ in range(count):
            parts = chance.bytes(self.chance.choice((2, 3)), self.chance.choice((16, 24)))
            if self.chance.random() < 0.3:
                parts = list(map(odd, parts))
            key = parts[0]
            for part in parts[1:]:
                key = many.xor(key, part)
            cases.append([*map(upper, parts), ""][:3])
            wanted.append([*(upper(it) for it in (key, odd(key), cmac(key, bytes(8))[:5])), *(
                text for it in (*parts, *[None] * (3 - len(parts)), key) for text in of_key(it))])
        names = ["component-1", "component-2", "component-3"]
        results = ["components-key", "components-odd", "components-cmac", *(
            f"{name}-{what}" for name in (*names, "components") for what in ("kcv", "parity"))]
        self.assert_tried(names, cases, results, wanted)
        self.assert_quiet()

    def test_by_hand(self) -> None:
        """Parities in words, and keys that are no better than a shorter one."""
        zeros = "00" * 16
        for part, words in ((BASE, "odd in each byte"), (zeros, "odd in no byte"),
                            ("01" * 15 + "03", "not odd in byte 16"),
                            ("00" + "01" * 14 + "06", "not odd in bytes 1, 16")):
            self.set(component_1=part, component_2=zeros, component_3="")
            self.assert_shown({"component-1-parity": words, "components-parity": words,
                               "components-key": part})
        single = "Two parts that follow each other are the same: this key is no better than single DES."
        double = "The first part and the last are the same: a key of 16 bytes does the same."
        a, b, c = BASE[:16], BASE[16:], "11" * 8
        for key, words in ((a + b, ""), (a + a, single), (a + "02" + a[2:], ""),
                           ("00" + a[2:] + a, single), (a + b + c, ""), (a + b + a, double),
                           (a + a + b, single), (a + b + b, single)):
            self.set(component_1=key, component_2="00" * (len(key) // 2))
            self.assert_shown({"components-note": words, "components-key": key})

    def test_lengths(self) -> None:
        """Components of two lengths are no key; the fault stands at the one that differs."""
        self.set(component_1=BASE, component_2="11" * 24, component_3="")
        self.assert_shown({"components-key": "", "components-kcv": "", "component-1-fault": "",
                           "component-2-fault": "All components have the same length."})
        self.set(component_2="11" * 16, component_3="22" * 24)
        self.assert_shown({"components-key": "", "component-2-fault": "",
                           "component-3-fault": "All components have the same length."})
        self.set(component_3="")
        self.assert_shown({"component-3-fault": ""})
        self.assertNotEqual(self.text("components-key"), "")


def odd(key: bytes) -> bytes:
    """The key with odd parity in each byte, by its lowest bits."""
    return bytes(byte if bin(byte).count("1") % 2 else byte ^ 1 for byte in key)


def of_key(key: Optional[bytes]) -> tuple[str, str]:
    """Check value and parity of a key, as they are shown; of none nothing."""
    if key is None:
        return "", ""
    even = [str(at + 1) for at, byte in enumerate(key) if bin(byte).count("1") % 2 == 0]
    words = ("odd in each byte" if not even else "odd in no byte" if len(even) == len(key) else
             f"not odd in byte{'s' * (len(even) > 1)} {', '.join(even)}")
    return upper(encrypt_block(key, bytes(8))[:3]), words
