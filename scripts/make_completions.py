#!/usr/bin/env python3
"""Writes completions/: the words of pprof for bash, zsh and fish, and those of its shell for rlwrap.

The words come from the sources: the tables of crates/pp_options have each option with its value and what it is for. With
--check nothing is written: status 1 says that completions/ is not current."""
import argparse
import pathlib
import re
import sys
from dataclasses import dataclass

ROOT = pathlib.Path(__file__).resolve().parent.parent
SOURCES = ROOT / "crates/pp_options/src"
MADE = "Made by scripts/make_completions.py from the help and the tables of names in crates/pp_options."
TOPICS = {"help": "print all options", "version": "print the version"}


@dataclass(frozen=True)
class Option:
    """An option without its dash; `value` names what follows =, and is empty for a flag."""

    name: str
    value: str
    about: str

    @property
    def choices(self):
        """The values, where they are words that are known."""
        return {"sort": names_in("value.rt", "SORTS"), "granularity": names_in("value.rt", "GRAINS")}.get(self.name, [])

    @property
    def takes_file(self):
        return self.value in ("PATH", "PATHS")


def constant(name):
    """The text of a byte string of help.rt."""
    found = re.search(name + r': &\[u8\] =\s*b"(.*?)";\n', (SOURCES / "help.rt").read_text(), re.S)
    return found[1].replace("\\\n", "").replace("\\n", "\n")


def names_in(file, table):
    """The names of a table."""
    found = re.search(r"static " + table + r":.*?= \[(.*?)\];", (SOURCES / file).read_text(), re.S)
    return re.findall(r'\(\s*b"([a-z0-9_]*)",', found[1])


def told():
    """What the help has of the tables of options."""
    code = "".join((SOURCES / file).read_text() for file in ("format.rt", "name.rt", "variable.rt"))
    rows = re.findall(r'Row::(\w+)\(\s*b"([^"]*)"', code)
    return "".join({"Option": "  -", "Also": ", -"}.get(kind, "") + text for kind, text in rows).replace("\\n", "\n")


def described():
    """Pairs of the words of an option and what it is for, from the help's lines."""
    for entry in re.findall(r"^  (-.*(?:\n {8,}.*)*)", told(), re.M):
        words, about = re.split(r"  +", " ".join(entry.split("\n")).strip(), maxsplit=1)
        yield words, " ".join(about.split())


def option_of(word, about):
    name, _, value = word.lstrip("-").partition("=")
    is_flag = value in ("", "false")
    return Option(name, "" if is_flag else value, about)


def options():
    """The options as the help has them, and the choice words behind those that they set."""
    found = [option_of(word, about) for words, about in described() for word in words.split(", ")]
    for file, table, what in (("value.rt", "SORTS", "the order"), ("value.rt", "GRAINS", "a row stands for"), ("sample_type.rt", "SAMPLE_TYPES", "the sample type")):
        found += [Option(name, "", f"{what}: {name}") for name in names_in(file, table)]
    return found


def commands():
    """The words that a line of the shell may begin with. Its help leaves out some formats."""
    line = constant("SHELL_HELP").splitlines()[0]
    return [*line.removeprefix("Commands: ").split(), *names_in("format.rt", "FORMATS"), "exit"]


def pattern(names):
    """A pattern of bash for these options, with one or two dashes."""
    return " | ".join(f"{dash}{name}" for name in names for dash in ("-", "--"))


def bash(all_options):
    with_value = [f"{it.name}=" for it in all_options if it.value]
    flags = [it.name for it in all_options if not it.value]
    cases = [f'        {pattern([it.name])}) values="{" ".join(it.choices)}" ;;' for it in all_options if it.choices]
    files = pattern(it.name for it in all_options if it.takes_file)
    others = pattern(it.name for it in all_options if it.value and not it.choices and not it.takes_file)
    return f"""# Completion of pprof's words in bash.
# {MADE}
_pprof() {{
    local word=${{COMP_WORDS[COMP_CWORD]}} before=${{COMP_WORDS[COMP_CWORD - 1]}} dash=- values
    # bash takes = for a word of its own
    if [[ $word == = ]]; then
        word=
    elif [[ $before == = ]]; then
        before=${{COMP_WORDS[COMP_CWORD - 2]}}
    elif [[ $word == -* ]]; then
        before=
    fi
    COMPREPLY=()
    case $before in
{chr(10).join(cases)}
        {files}) return ;;
        {others})
            compopt +o default
            return
            ;;
    esac
    if [[ $values ]]; then
        mapfile -t COMPREPLY < <(compgen -W "$values" -- "$word")
    elif [[ $word == -* ]]; then
        [[ $word == --* ]] && dash=--
        values="{" ".join([*with_value, *flags])}"
        [[ $COMP_CWORD == 1 ]] && values+=" {" ".join(TOPICS)}"
        mapfile -t COMPREPLY < <(compgen -P "$dash" -W "$values" -- "${{word#"$dash"}}")
        [[ ${{COMPREPLY[*]}} == *= ]] && compopt -o nospace
    fi
}}
complete -o default -F _pprof pprof
"""


def zsh_line(option):
    about = re.sub(r"([\[\]:\\])", r"\\\1", option.about)
    if not option.value:
        return f"'-{option.name}[{about}]'"
    action = f"({' '.join(option.choices)})" if option.choices else "_files" if option.takes_file else " "
    many = "*" if option.name in ("base", "diff_base", "gen") else ""
    return f"'{many}-{option.name}=[{about}]:{option.value.lower()}:{action}'"


def zsh(all_options):
    topics = [f"'(- *)--{name}[{about}]'" for name, about in TOPICS.items()]
    lines = [*topics, *[zsh_line(it) for it in all_options], "'*:profile:_files'"]
    return f"#compdef pprof\n# Completion of pprof's words in zsh.\n# {MADE}\n_arguments \\\n" + " \\\n".join(f"    {it}" for it in lines) + "\n"


def fish_line(option):
    start = f"complete -c pprof -o {option.name} -l {option.name} -d '{option.about}'"
    if not option.value:
        return start
    if option.takes_file:
        return f"{start} -r -F"
    return f"{start} -x" + (f" -a '{' '.join(option.choices)}'" if option.choices else "")


def fish(all_options):
    first = "test (count (commandline -opc)) -eq 1"
    topics = [f"complete -c pprof -n '{first}' -l {name} -d '{about}'" for name, about in TOPICS.items()]
    return "\n".join(["# Completion of pprof's words in fish.", f"# {MADE}", *topics, *map(fish_line, all_options)]) + "\n"


def shell_words(all_options):
    """Words of the shell: commands, variables and choice words, one a line."""
    variables = names_in("variable.rt", "VARIABLES")
    choices = [value for it in all_options for value in it.choices]
    return "\n".join(sorted({*commands(), *variables, *choices})) + "\n"


def files():
    found = options()
    made = {"pprof.bash": bash, "_pprof": zsh, "pprof.fish": fish, "pprof.words": shell_words}
    return {ROOT / "completions" / name: write(found) for name, write in made.items()}


def main():
    parser = argparse.ArgumentParser(description=__doc__, formatter_class=argparse.RawDescriptionHelpFormatter)
    parser.add_argument("--check", action="store_true", help="write nothing; status 1 where a file is not current")
    is_check = parser.parse_args().check
    stale = [path for path, text in files().items() if not path.is_file() or path.read_text() != text]
    for path in stale:
        print(f"{path.relative_to(ROOT)}: {'not current' if is_check else 'written'}")
        if not is_check:
            path.parent.mkdir(exist_ok=True)
            path.write_text(files()[path])
    print(f"{len(files())} files, {len(stale)} {'not current' if is_check else 'written'}")
    return 1 if is_check and stale else 0


if __name__ == "__main__":
    sys.exit(main())
