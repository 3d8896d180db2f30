"""The arguments of the program: as its help has them, and as the files have them that name them.

Of each source these are the commands, the words for values behind each, its options, and what an
option's value is called. The files are read as text: it needs no man, no zsh and no fish.
"""
from __future__ import annotations

import re
from typing import Callable, Optional

from ..program import ROOT

# What the program itself takes, beside its commands.
PROGRAM = "dukpt"
# What each command takes.
EXPLAIN = "--explain"
EACH: dict[str, Optional[str]] = {"-h": None, "--help": None, EXPLAIN: None}
# What each takes that prints lines of its own, and how it is, and those that do not.
VIEWS: dict[str, Optional[str]] = {"--json": None, "--progress": None}
WITHOUT_VIEWS = ("run", "serve", "help")

Options = dict[str, Optional[str]]


class Unreadable(Exception):
    """What cannot be read."""


class Words:
    """What stands behind each command: words for values, and options with what they take."""

    def __init__(self) -> None:
        self.values: dict[str, list[str]] = {PROGRAM: []}
        self.options: dict[str, Options] = {PROGRAM: {}}

    def add(self, command: str, values: list[str], options: Options) -> None:
        if command in self.values and command != PROGRAM:
            raise Unreadable(f"{command} stands there twice")
        self.values[command], self.options[command] = list(values), dict(options)

    def lines(self) -> set[str]:
        """A line for each word, to be compared."""
        found = set()
        for command, values in self.values.items():
            found.add(f"command {command}")
            found |= {f"{command}: word {place} is {name}" for place, name in enumerate(values, 1)}
            for option, value in self.options[command].items():
                found.add(f"{command}: option {option}" + (f" {value}" if value else ""))
        return found


def text_of(*path: str) -> str:
    return ROOT.joinpath(*path).read_text(encoding="utf-8")


# The program's help


def part(text: str, title: str) -> list[str]:
    """The lines below a title of the help, to the next empty line."""
    found = re.search(rf"^{title}:\n((?:  .*\n)+)", text, re.M)
    return found.group(1).splitlines() if found else []


def options_of_help(text: str) -> Options:
    found: Options = {}
    for line in part(text, "Options"):
        head = re.match(r"  (?:(-\w), |    )(--[\w-]+)(?: <(\w+)>)?(?:  |$)", line)
        if not head:
            raise Unreadable(f"an option of the help: {line}")
        short, long, value = head.groups()
        found[long] = value
        if short:
            found[short] = value
    return found


def values_of_help(text: str) -> list[str]:
    heads = [re.match(r"  [<\[](\w+)[>\]]", line) for line in part(text, "Arguments")]
    if not all(heads):
        raise Unreadable("a word for a value of the help")
    return [head.group(1) for head in heads if head]


def words_of_help(helps: dict[str, str]) -> Words:
    """The words of the help of the program and of each command."""
    words = Words()
    for command, text in helps.items():
        # It stands in the texts of the helps, and not among the options.
        explains = {EXPLAIN: None, **views_of(command)} if EXPLAIN in text else {}
        words.add(command, values_of_help(text), {**options_of_help(text), **explains})
    return words


def commands_of_help(text: str) -> list[str]:
    return [line.split()[0] for line in part(text, "Commands")]


def examples_of_help(text: str) -> list[tuple[str, str]]:
    """The commands of the examples of a help, each with what it is to print."""
    found: list[tuple[str, str]] = []
    for line in part(text, "Examples?"):
        if line.startswith("  $ "):
            found.append((line[4:], ""))
        elif found:
            words, printed = found.pop()
            found.append((words, printed + line[2:] + "\n"))
        else:
            raise Unreadable(f"a line of no example: {line}")
    return found


# The manual page, and docs/COMMANDS.md


def words_of_heading(text: str) -> tuple[str, list[str], Options]:
    """Of `walk BDK [--skip K] [--ksn]`: the command, the words for values, and the options. One that
    has to stand there has no brackets."""
    command, _, rest = text.partition(" ")
    option = r"\[(--[\w-]+)(?: (\w+))?\]|(--[\w-]+) (\w+)"
    options = {name or needed: value or word or None
               for name, value, needed, word in re.findall(option, rest)}
    values = re.sub(option, "", rest).split()
    # `KEY..` stands for one or more.
    return command, [value.strip("[].") for value in values], options


def with_each(command: str, options: Options) -> Options:
    """A heading says nothing of what each command takes."""
    return options if command == "help" else {**options, **EACH, **views_of(command)}


def views_of(command: str) -> Options:
    return {} if command in WITHOUT_VIEWS else VIEWS


def words_of_manual() -> Words:
    words, command, described = Words(), None, {}
    for line in text_of("share", "man", "dukpt.1").replace("\\-", "-").splitlines():
        macro, _, rest = line.partition(" ")
        if macro == ".SH":
            command = PROGRAM if rest == "OPTIONS" else None
        elif macro == ".SS":
            command, values, options = words_of_heading(rest)
            words.add(command, values, with_each(command, options))
        elif command == PROGRAM and macro == ".BR" and rest.startswith("-"):
            words.options[PROGRAM].update(dict.fromkeys(re.findall(r"-[\w-]+", rest)))
        elif command and macro in (".I", ".BI", ".B") and re.match(r"--|[A-Z]+(\.\.)?$", rest):
            described.setdefault(command, []).append(rest.replace('"', "").rstrip("."))
    demand_described(words, described)
    return words


def demand_described(words: Words, described: dict[str, list[str]]) -> None:
    """Below each heading of the manual page stand the words of the heading, and no others."""
    for command, values in words.values.items():
        named = [" ".join(filter(None, (option, value)))
                 for option, value in words.options[command].items() if option not in {**EACH, **VIEWS}]
        found = [re.sub(" +", " ", it) for it in described.get(command, [])]
        if command != PROGRAM and sorted(found) != sorted(values + named):
            raise Unreadable(f"the words below {command} are not those of its heading")


def words_of_commands() -> Words:
    """The headings of docs/COMMANDS.md, which has `help` and the program's options in its table."""
    words, text = Words(), text_of("docs", "COMMANDS.md")
    for heading in re.findall(r"^## `(.*)`$", text, re.M):
        command, values, options = words_of_heading(heading)
        words.add(command, values, with_each(command, options))
    rows = re.findall(r"^\| (`.*?) \|", text.split("\n## ")[0], re.M)
    for name in re.findall(r"`([^`]+)`", " ".join(rows)):
        if name.startswith("-"):
            words.options[PROGRAM][name] = None
        else:
            words.add(*words_of_heading(name))
    return words


# The completions


def words_of_bash() -> Words:
    words, text = Words(), text_of("share", "completions", "dukpt.bash")
    for command, rest in re.findall(r'^    \[([\w-]+)\]="(.*)"$', text, re.M):
        options = [it.partition("=") for it in rest.split() if it.startswith("-")]
        words.add(command, [it.rstrip(".") for it in rest.split() if not it.startswith("-")],
                  {name: value or None for name, _, value in options})
    options = re.search(r'^_dukpt_options="(.*)"$', text, re.M)
    if not options:
        raise Unreadable("there are no options of the program")
    words.options[PROGRAM] = dict.fromkeys(options.group(1).split())
    return words


def words_of_zsh() -> Words:
    words, text = Words(), text_of("share", "completions", "_dukpt")
    shared = dict(re.findall(r"local -a (\w+)=\((.*)\)$", text, re.M))
    first = "".join(re.findall(r"_arguments -C (.*?)&&", text, re.S))
    words.options[PROGRAM] = options_of_zsh(first, shared)
    for command, rest in re.findall(r"^        ([\w-]+)\) _arguments (.*?) ;;$", text, re.M | re.S):
        values = re.findall(r"'(\d+|\*):(\w+):", rest)
        places = [str(place) for place in range(1, len(values) + 1)]
        if [place for place, _ in values] not in (places, [*places[:-1], "*"]):
            raise Unreadable(f"{command}: its words are not numbered one after the other")
        words.add(command, [name for _, name in values], options_of_zsh(rest, shared))
    named = re.findall(r"^        '([a-z-]+):", text, re.M)
    if sorted([PROGRAM, *named]) != sorted(words.values):
        raise Unreadable("the commands that are offered are not those that are completed")
    return words


def options_of_zsh(text: str, shared: dict[str, str]) -> Options:
    for name, options in shared.items():
        text = text.replace(f"${name}", options)
    found: Options = {name: value or None for name, value in re.findall(
        r"'(--[\w-]+)=?\[[^]]*\](?::(\w+):)?", text)}
    for names in re.findall(r"\{(-[^}]*)\}", text):
        found.update(dict.fromkeys(names.split(",")))
    return found


OFFER_OF_FISH = r"^complete -c dukpt -n __fish_use_subcommand -a ([\w-]+) -d '([^:']*):"
OPTION_OF_FISH = (
    r"^complete -c dukpt -n (?:__fish_use_subcommand|'__fish_seen_subcommand_from ([\w-]+)') (.*)$")


def words_of_fish() -> Words:
    words, text = Words(), text_of("share", "completions", "dukpt.fish")
    for command, values in re.findall(OFFER_OF_FISH, text, re.M):
        words.add(command, [it.rstrip(".") for it in values.split()], {})
    for command, rest in re.findall(OPTION_OF_FISH, text, re.M):
        value = re.search(r"-[xr] .*-d '(\w+):", rest)
        for dash, name in re.findall(r"-(s|l) ([\w-]+)", rest.partition(" -d ")[0]):
            name = f"-{name}" if dash == "s" else f"--{name}"
            words.options[command or PROGRAM][name] = value.group(1) if value else None
    offered = re.search(r"from help' -a '(.*)'$", text, re.M)
    if not offered or sorted([PROGRAM, *offered.group(1).split()]) != sorted(words.values):
        raise Unreadable("the commands that `help` is offered are not those that there are")
    return words


FILES: dict[str, Callable[[], Words]] = {
    "share/man/dukpt.1": words_of_manual,
    "docs/COMMANDS.md": words_of_commands,
    "share/completions/dukpt.bash": words_of_bash,
    "share/completions/_dukpt": words_of_zsh,
    "share/completions/dukpt.fish": words_of_fish,
}


# What `show` prints


def kinds_of_help(text: str) -> set[str]:
    """The kinds that the help of `show` names."""
    found = re.search(r"<KIND>\s+What WHAT is: (.*)", text)
    if not found:
        raise Unreadable("the help of `show` names no kinds")
    return set(re.split(", | or ", found.group(1)))


def kinds_of_completions() -> dict[str, set[str]]:
    """Those that each completion offers."""
    kinds = {}
    for name, offer in (("dukpt.bash", r'\*:KIND\) offered="(.*)" ;;'), ("_dukpt", r"'1:KIND:\((.*?)\)'"),
                        ("dukpt.fish", r"_from show' -a '(.*) \(__dukpt_secret\)'")):
        found = re.search(offer, text_of("share", "completions", name))
        kinds[name] = set(found.group(1).split()) if found else set()
    return kinds
