"""The scripts that complete rdbg's words, made of the table of them."""
import shlex
from typing import Callable, Dict, List, Sequence

from rdbg.completing.table import FILES, Option, Word, own

NONE = "-"
FILE = "FILE"
BASH = """\
# Completes the words of rdbg in bash; `rdbg completion bash` prints it.
# What stands behind a word, behind an option of one, or, of `- WORD`, where an option can: FILE,
# words, or - for what nobody can complete.
_rdbg_known() {{
    case $1 in
{cases}
    esac
}}

_rdbg() {{
    local begun=${{COMP_WORDS[COMP_CWORD]}} before=${{COMP_WORDS[COMP_CWORD - 1]}} at=1 word found
    COMPREPLY=()
    case ${{COMP_WORDS[1]}} in --proved | --unproved) at=2 ;; esac
    if ((COMP_CWORD <= at)); then
        mapfile -t COMPREPLY < <(compgen -W {words} -- "$begun")
        return
    fi
    word=${{COMP_WORDS[at]}}
    found=$(_rdbg_known "$word $before")
    if [ -z "$found" ]; then
        case $begun in
            -*) found=$(_rdbg_known "- $word") ;;
            *) found=$(_rdbg_known "$word") ;;
        esac
    fi
    case $found in
        -) ;;
        FILE)
            compopt -o filenames 2> /dev/null
            mapfile -t COMPREPLY < <(compgen -f -- "$begun")
            ;;
        *) mapfile -t COMPREPLY < <(compgen -W "$found" -- "$begun") ;;
    esac
}}

complete -F _rdbg rdbg
"""
ZSH = """\
#compdef rdbg
# Completes the words of rdbg in zsh; `rdbg completion zsh` prints it.
_rdbg() {{
    local at=2
    local -a known
    case ${{words[2]}} in --proved | --unproved) at=3 ;; esac
    if (( CURRENT <= at )); then
        known=(
{words}
        )
        _describe 'word of rdbg' known
        return
    fi
    words=("${{(@)words[at,-1]}}")
    (( CURRENT -= at - 1 ))
    case ${{words[1]}} in
{cases}
    esac
}}

if [[ ${{funcstack[1]-}} = _rdbg ]]; then
    _rdbg "$@"
else
    compdef _rdbg rdbg
fi
"""


def behind(is_file: bool, choices: Sequence[str]) -> str:
    """What stands there, for bash."""
    return FILE if is_file else " ".join(choices) or NONE


def bash(words: Sequence[Word]) -> str:
    """The script for bash."""
    known: Dict[str, str] = {}
    for word in words:
        known[f"- {word.name}"] = " ".join(name for it in word.options for name in it.names)
        known[word.name] = behind(word.has_files, word.choices)
        for it in (it for it in word.options if it.value):
            for name in it.names:
                known[f"{word.name} {name}"] = behind(it.value in FILES, it.choices)
    first = [it.name for it in words] + [name for it in own() for name in it.names]
    pairs = (map(shlex.quote, pair) for pair in known.items())
    cases = "\n".join(f"        {word}) echo {said} ;;" for word, said in pairs)
    return BASH.format(words=shlex.quote(" ".join(first)), cases=cases)


def told(text: str) -> str:
    """A text inside of a specification of zsh's."""
    for sign in "\\[]:":
        text = text.replace(sign, f"\\{sign}")
    return text


def action(is_file: bool, choices: Sequence[str]) -> str:
    """What stands there, for zsh."""
    return "_files" if is_file else f"({' '.join(choices)})" if choices else " "


def specifications(option: Option) -> List[str]:
    """An option as zsh's `_arguments` has it, by each name."""
    value = f":{told(option.value)}:{action(option.value in FILES, option.choices)}"
    text = f"[{told(option.text)}]{value if option.value else ''}"
    return [f"{'*' * option.is_repeated}{name}{text}" for name in option.names]


def case_of(word: Word) -> str:
    """The case of a word in the script for zsh."""
    said = [text for it in word.options for text in specifications(it)]
    said.append(f"*:word:{action(word.has_files, word.choices)}")
    return f"        {word.name}) _arguments {' '.join(map(shlex.quote, said))} ;;"


def zsh(words: Sequence[Word]) -> str:
    """The script for zsh."""
    first = [f"{it.name}:{told(it.text)}" for it in words]
    first += [f"{name}:{told(it.text)}" for it in own() for name in it.names]
    known = "\n".join(f"            {shlex.quote(it)}" for it in first)
    return ZSH.format(words=known, cases="\n".join(map(case_of, words)))


OF_SHELL: Dict[str, Callable[[Sequence[Word]], str]] = {"bash": bash, "zsh": zsh}
