"""What shells complete of the program's words, and the options in its man page, as the texts of --help in
docs/help have them. `tools/python rsp_tools.page_tables` writes them into the files of tools/packaging/share.
"""

import re
from typing import Dict, Iterator, List, NamedTuple, Tuple

from rsp_tools import TOP

SHARE = "tools/packaging/share"


class Option(NamedTuple):
    """An option: its names, of which a short one comes first, the name of its value, if it takes one, and
    what it does."""

    names: List[str]
    value: str
    text: str


class Help(NamedTuple):
    """A text of --help. `words` are the arguments of a command or the commands of the program."""

    about: str
    usage: str
    words: List[Tuple[str, str]]
    options: List[Option]

    def option_names(self) -> str:
        """All names of options, with blanks between them."""
        return " ".join(name for it in self.options for name in it.names)


def help_of(name: str) -> Help:
    """The text of --help of a command, or of `rsp`."""
    text = (TOP / f"docs/help/{name}.txt").read_text()
    (usage,) = re.findall(r"(?m)^Usage: (.*)$", text)
    words = re.findall(r"(?m)^  (\w+|\[?<?[A-Z]+>?\]?)  +(\S.*)$", text.partition("Options:")[0])
    found = re.findall(r"(?m)^ +(?:(-\w), )?(--[\w-]+)(?: <(\w+)>)?  +(.*)$", text)
    options = [Option([it for it in names if it], value, said) for *names, value, said in found]
    return Help(text.partition("\n")[0], usage, words, options)


FIRST = help_of("rsp")
HELPS = {name: help_of(name) for name, _ in FIRST.words if name != "help"}
NAMES = " ".join(HELPS)


def with_lines(path: str, *parts: Tuple[str, str, str]) -> Dict[str, str]:
    """A file of the folder with other lines between two that stay. Empty text is the end of the file."""
    text = (TOP / SHARE / path).read_text()
    for before, lines, after in parts:
        begin = text.index(before) + len(before)
        end = text.index(after, begin) if after else len(text)
        text = f"{text[:begin]}{lines}\n{text[end:]}"
    return {f"{SHARE}/{path}": text}


def bash() -> Dict[str, str]:
    valued = {it.names[-1]: it.value for help in HELPS.values() for it in help.options if it.value}
    files, others = (
        " | ".join(it for it in valued if (valued[it] == "FILE") == is_file) for is_file in (1, 0)
    )
    first = " ".join([*(name for name, _ in FIRST.words), FIRST.option_names()])
    form = '    {}) [[ $word != -* ]] || words="{}" ;;'
    words = [
        f'    "") words="{first}" ;;',
        *(form.format(name, it.option_names()) for name, it in HELPS.items()),
    ]
    words.append(f'    help) [ "$COMP_CWORD" -gt 2 ] || words="{NAMES}" ;;')
    values = (
        f"    {files} | *[\\<\\>]*) words= ;;\n    {others}) compopt +o default +o bashdefault; words= ;;"
    )
    return with_lines(
        "bash-completion/completions/rsp",
        ("case $command in\n", "\n".join(words), "    esac\n"),
        ("case $before in\n", values, "    *) "),
    )


def zsh_option(it: Option) -> str:
    """An option as `_arguments` takes it. Nothing comes after one that has a short name."""
    text = re.sub(r"[][]", r"\\\g<0>", it.text)
    if len(it.names) > 1:
        return f"'(- *)'{{{','.join(it.names)}}}'[{text}]'"
    value = f":{it.value}:{'_files' if it.value == 'FILE' else ' '}" if it.value else ""
    return f"'{it.names[0]}[{text}]{value}'"


def zsh_words(it: Help) -> str:
    """The options and the arguments of a command. All arguments are files."""
    words = (
        f"'{n}:{':' * (it[0] == '[')}{it.strip('[]<>')}:_files'" for n, (it, _) in enumerate(it.words, 1)
    )
    return " ".join([*map(zsh_option, it.options), *words])


def zsh() -> Dict[str, str]:
    options = " ".join(map(zsh_option, FIRST.options))
    commands = " ".join(f'{name}\\:"{text}"' for name, text in FIRST.words)
    words = [f"    {name}) _arguments {zsh_words(it)} ;;" for name, it in HELPS.items()]
    words.append(f"    help) _arguments '1:command:({NAMES})' ;;")
    return with_lines(
        "zsh/site-functions/_rsp",
        (
            "_arguments -C \\\n",
            f"        {options} \\\n        '1:command:(({commands}))' \\",
            "        '*::word:",
        ),
        ("case $line[1] in\n", "\n".join(words), "    esac\n"),
    )


def fish_option(when: str, it: Option) -> str:
    short = "".join(f" -s {name[1:]}" for name in it.names[:-1])
    value = {"": "", "FILE": " -r -F"}.get(it.value, " -x")
    return f"complete -c rsp -n '{when}'{short} -l {it.names[-1][2:]}{value} -d '{it.text}'"


def fish_lines() -> Iterator[str]:
    yield from (
        f"complete -c rsp -n __fish_use_subcommand -a {name} -d '{text}'" for name, text in FIRST.words
    )
    yield from (fish_option("__fish_use_subcommand", it) for it in FIRST.options)
    for name, it in HELPS.items():
        yield from (fish_option(f"__rsp_has {name}", option) for option in it.options)
        yield f"complete -c rsp -n '__rsp_has {name}' -F"
    yield f"complete -c rsp -n '__rsp_has help; and test (count (commandline -opc)) -eq 2' -a '{NAMES}'"


def man_lines(name: str, it: Help) -> str:
    """The part of the man page about a command."""
    options = [(", ".join(one.names) + f" <{one.value}>" * bool(one.value), one.text) for one in it.options]
    lines = "".join(f"\n.TP\n.B {word}\n{text}" for word, text in [*it.words, *options]).replace("-", "\\-")
    return f".SS rsp {name}\n{it.about}.{lines}"


def files() -> Dict[str, str]:
    """Each file by its path in the repository."""
    usage = "\n.br\n".join(f".B {it.usage}" for it in HELPS.values())
    commands = "\n".join(man_lines(name, it) for name, it in HELPS.items())
    return {
        **bash(),
        **zsh(),
        **with_lines(
            "fish/vendor_completions.d/rsp.fish", ("complete -c rsp -f\n", "\n".join(fish_lines()), "")
        ),
        **with_lines(
            "man/man1/rsp.1",
            (".SH SYNOPSIS\n", usage, ".SH DESCRIPTION\n"),
            ("of the Nintendo 64.\n", commands, ".SH SCRIPTS\n"),
        ),
    }
