"""The completion for bash, made of the parser's own words."""
import argparse

HEAD = """# Completion of krill's words for bash, made by 'krill completion'.
_krill()
{
    local current=${COMP_WORDS[COMP_CWORD]} before=${COMP_WORDS[COMP_CWORD-1]} words= at
    for ((at = 1; at < COMP_CWORD; at++)); do
        case ${COMP_WORDS[at]} in
            --store|--krillc|--format) ((at++)) ;;
            -*) ;;
            *) words="$words ${COMP_WORDS[at]}" ;;
        esac
    done
    case $before in
"""


def bash(top):
    """A case for each option with choices or files, then one for each command, the longest words first."""
    text = HEAD
    text += '        --format) COMPREPLY=($(compgen -W "text json" -- "$current")); return ;;\n'
    text += '        --as) COMPREPLY=($(compgen -W "json csv" -- "$current")); return ;;\n'
    text += '        --store) COMPREPLY=($(compgen -d -- "$current")); return ;;\n'
    text += '        --krillc) COMPREPLY=($(compgen -c -- "$current")); return ;;\n    esac\n    case $words in\n'
    for words, found in sorted(all_words(top, ""), key=lambda it: -len(it[0].split())):
        pattern = f'"{words}"*' if words else "*"
        files = " -f" if words == " roas import" else ""
        text += f'        {pattern}) COMPREPLY=($(compgen{files} -W "{" ".join(found)}" -- "$current")) ;;\n'
    return text + "    esac\n}\ncomplete -F _krill krill\n"


def all_words(made, words):
    """Each command's words, with the words and options that may come behind them."""
    below = [it for it in made._actions if isinstance(it, argparse._SubParsersAction)]
    options = [it for action in made._actions for it in action.option_strings]
    names = [name for action in below for name in action.choices]
    yield words, names + options
    for action in below:
        for name, inner in action.choices.items():
            yield from all_words(inner, f"{words} {name}")
