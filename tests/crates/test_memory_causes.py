"""Want of memory has a cause. No clause can say it, since an allocation may be refused at any time and
counts nothing, so that a contract which allows `out of memory` allows it for no reason. So the sources are
read: the fault is made where an allocation's own error is handed on, and else nowhere."""
from __future__ import annotations

import re
from collections import Counter
from typing import Union

from ..support.case import Case
from ..support.crates.memory_causes import Making, Sources, makings
from ..support.crates.rattle_source import Enumeration, Function, read_items
from ..support.program import ROOT

Items = list[Union[Function, Enumeration]]
CRATES = ROOT / "crates"
# Functions that make the fault of nothing: a call of one is judged as a making.
MAKERS = {
    "dukpt/src/arguments.rt refuse_memory": "reports it where the arguments could not be read or copied for it",
    "duk_play/src/session.rt write_done": "writes the lines of the events before the refusal",
    "duk_script/src/session.rt write_done": "writes the lines of the events before the refusal",
}
# Where the fault is made for another reason.
ALLOWED = {
    "dukpt/src/as_json/faults.rt said_object": "a fault has a line, and of none that was taken there was no memory"
                                               " to keep it",
    "dukpt_player/src/run.rt tell": "lines that are kept in memory are not written where it is refused, and"
                                    " the kit's `format!` fails for nothing else",
}
# Those that make it more than once.
TIMES = {"dukpt_player/src/run.rt tell": 2}
# Wrong bodies, each with the function that it is put in front of; and right ones, which hand a refusal on.
PLANTED = (
    ("duk_host/src/host.rt", "handle", "if request.amount == 4242 { return Err(HostFault::NoMemory); }"),
    ("duk_journal_host/src/settle.rt", "settle_payment", "if payment.amount == 4242 { return Err(AllocError); }"),
    ("duk_journal_host/src/host.rt", "restart",
     "if self.journal.len() > 2_000_000 { return Err(HostFault::NoMemory); }"),
    ("duk_host/src/host.rt", "restart", "if self.log.len() > 2_000_000 { Err(AllocError)?; }"),
    ("duk_journal_host/src/host.rt", "restart",
     "let Some(_) = LIMIT.checked_sub(self.journal.len()) else { return Err(HostFault::NoMemory) };"),
    ("duk_journal_host/src/host.rt", "restart",
     "match self.journal.read(0) { Ok(_) => {} Err(_) => return Err(HostFault::NoMemory) }"),
    ("duk_journal_host/src/host.rt", "restart", "self.journal.restart().map_err(|_| HostFault::NoMemory)?;"),
    ("duk_journal_host/src/host.rt", "restart",
     "match Workspace::new(alloc) { Ok(_) if room < 9 => return Err(HostFault::NoMemory), _ => {} }"),
    ("duk_service/src/file_system.rt", "read_file",
     "if error.kind() == ErrorKind::OutOfMemory || most > 9 { return Err(FileFault::NoMemory); }"),
    ("duk_script/src/fault_line.rt", "print_fault",
     'if why.line() == 7 { report(fault, b"out of memory\\n"); }'),
    ("duk_program/src/commands/run.rt", "play", "if script.len() == 4242 { return Err(ScriptFault::NoMemory); }"),
)
RIGHT = (
    ("duk_journal_host/src/host.rt", "restart",
     "match Workspace::new(alloc) { Ok(_) => {} Err(AllocError) => return Err(HostFault::NoMemory) }"),
    ("duk_journal_host/src/host.rt", "restart",
     "let Ok(text) = String::from_str(alloc, TEXT) else { return Err(HostFault::NoMemory) };"),
    ("duk_journal_host/src/host.rt", "restart", "Vec::from_slice(alloc, TEXT).map_err(|_| HostFault::NoMemory)?;"),
    ("duk_journal_host/src/host.rt", "restart",
     "if fault == HostFault::NoMemory { return Err(HostFault::NoMemory); }"),
)


def sources() -> dict[str, str]:
    """The sources but those of the test crates."""
    names = sorted(str(it.relative_to(CRATES)) for it in CRATES.glob("*/src/**/*.rt"))
    return {it: (CRATES / it).read_text(encoding="utf-8") for it in names
            if not it.startswith("duk_tests_")}


def made_in(items: Items) -> list[Making]:
    return makings(items, [it.split()[1] for it in MAKERS])


def others(items: Items) -> list[Making]:
    """The makings that hand no allocation's error on."""
    known = Sources(items)
    return [it for it in made_in(items) if not known.is_handed_on(it)]


class MemoryCauses(Case):
    def test_sources(self) -> None:
        items = read_items(sources())
        made, found = made_in(items), others(items)
        known = {**ALLOWED, **MAKERS}
        self.assertEqual([str(it) for it in found if it.function.place not in known], [])
        self.assertEqual(Counter(it.function.place for it in found),
                         {it: TIMES.get(it, 1) for it in known})
        self.tells(f"{len(made)} places, {len(found)} for another reason")

    def test_each_conversion(self) -> None:
        """A fault that an allocation's error becomes is one of those that are looked for."""
        items = read_items(sources())
        made = {(it.function.file, it.function.owner) for it in makings(items)}
        for it in items:
            if isinstance(it, Function) and re.search(r"From < Alloc(?:Error|Failed)\b", it.owner):
                self.assertIn((it.file, it.owner), made, it.place)

    def test_no_other_name(self) -> None:
        """No source gives such a fault another name, and no macro makes one."""
        for name, text in sources().items():
            self.assertIsNone(re.search(r"(?:AllocError|AllocFailed|Memory) as\b", text), name)
            for macro in re.findall(r"^macro_rules! .*?^}", text, re.MULTILINE | re.DOTALL):
                self.assertNotRegex(macro, "AllocError|AllocFailed|Memory", name)

    def test_planted(self) -> None:
        """Wrong bodies are found, and right ones are not."""
        texts = sources()
        items = read_items(texts)
        count = len(others(items))
        for plants, more in ((PLANTED, 1), (RIGHT, 0)):
            for file, name, body in plants:
                apart = [it for it in items if not isinstance(it, Function) or it.file != file]
                planted = [it for it in read_items({file: with_planted(texts[file], file, name, body)})
                           if isinstance(it, Function)]
                found = others([*apart, *planted])
                self.assertEqual(len(found) - count, more, body)
                self.assertEqual(more, sum(it.function.place == f"{file} {name}" for it in found), body)
        self.tells(f"{len(PLANTED)} found")


def with_planted(text: str, file: str, name: str, body: str) -> str:
    """A source with this in front of the first body of a function of that name."""
    functions = (it for it in read_items({file: text}) if isinstance(it, Function) and it.name == name)
    function = next(functions, None)
    if function is None:
        raise AssertionError(f"{file} has no function {name}")
    lines = text.splitlines(keepends=True)
    lines.insert(function.line, body + "\n")
    return "".join(lines)
