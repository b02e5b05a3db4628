"""Completions for bash and zsh, made of the program's help."""
from helps import PROGRAM

# What stands behind an option, by the name of its value: folders, files, or one of some words. Others are up to the user.
FOLDER, FILE = "DIR", "FILE"
CHOICES = {"SCOPE": ["base", "one", "sub", "children"], "ldif-wrap=N|no": ["ldif-wrap=no", "ldif-wrap=76"]}

BASH = """\
# Completions of {program} for bash, made of its help.
_{program}() {{
    local word=$2 before=$3 begin= command= at=$COMP_CWORD
    COMPREPLY=()
    # bash parts a word at each `=`, and looks for what stands behind the last one
    [[ ${{COMP_WORDS[at]}} == = ]] || ((at--))
    if ((at > 2)) && [[ ${{COMP_WORDS[at]}} == = ]]; then
        begin=${{COMP_WORDS[at - 1]}}=
        word=$begin${{word#=}} before=${{COMP_WORDS[at - 2]}}
    fi
    for ((at = 1; at < COMP_CWORD; at++)); do
        case ${{COMP_WORDS[at]}} in
            {commands}) command=${{COMP_WORDS[at]}}; break ;;
        esac
    done
    case $command:$before in
{values}        *)
            case $command in
{words}            esac ;;
    esac
    COMPREPLY=("${{COMPREPLY[@]#"$begin"}}")
}}
complete -F _{program} {program}
"""
BASH_KINDS = {
    FOLDER: 'compopt -o filenames 2> /dev/null; mapfile -t COMPREPLY < <(compgen -d -- "$word")',
    FILE: 'compopt -o filenames 2> /dev/null; mapfile -t COMPREPLY < <(compgen -f -- "$word")',
}

ZSH = """\
#compdef {program}
# Completions of {program} for zsh, made of its help.
_{program}() {{
    local context state state_descr line
    typeset -A opt_args
    _arguments -C {options} '1:command:->command' '*::word:->word' && return
    case $state in
        command)
            local -a commands=({commands})
            _describe command commands ;;
        word)
            case $line[1] in
{words}            esac ;;
    esac
}}
if [ "$funcstack[1]" = _{program} ]; then
    _{program} "$@"
else
    compdef _{program} {program}
fi
"""


def words_of(read):
    return [name for option in read.options for name in option.names()]


def bash_choice(value):
    """What completes a value of this name."""
    return BASH_KINDS.get(value) or f"""mapfile -t COMPREPLY < <(compgen -W "{' '.join(CHOICES.get(value, []))}" -- "$word")"""


def bash_values(helps):
    """For each option with a value, what completes that."""
    for command, read in helps.items():
        for option in read.options:
            if option.value:
                yield f"        {'|'.join(f'{command}:{name}' for name in option.names())}) {bash_choice(option.value)} ;;\n"


def bash_words(whole, helps):
    """For each command, its options; without one, the commands."""
    for command, words in [("", [*whole.commands, *words_of(whole)]), ("help", helps)] + [(name, words_of(read)) for name, read in helps.items()]:
        yield f"""                {command or '""'}) mapfile -t COMPREPLY < <(compgen -W "{' '.join(words)}" -- "$word") ;;\n"""


def bash(whole, helps):
    values, words = "".join(bash_values(helps)), "".join(bash_words(whole, helps))
    return BASH.format(program=PROGRAM, commands="|".join(whole.commands), values=values, words=words)


def quoted(text):
    """A word of zsh."""
    return "'" + text.replace("'", "'\\''") + "'"


def zsh_text(text):
    """A text within the brackets of an option."""
    return text.replace("\\", "\\\\").replace("[", "\\[").replace("]", "\\]").replace(":", "\\:")


def zsh_choice(value):
    if value in CHOICES:
        return f"({' '.join(CHOICES[value])})"
    return {FOLDER: "_files -/", FILE: "_files"}.get(value, " ")


def zsh_option(option):
    """An option as `_arguments` takes it, once in a command line."""
    names, value = option.names(), f":{option.value}:{zsh_choice(option.value)}" if option.value else ""
    return [quoted(f"({' '.join(names)}){name}[{zsh_text(option.text)}]{value}") for name in names]


def zsh_words(helps):
    for command, read in helps.items():
        words = [word for option in read.options for word in zsh_option(option)]
        words += [quoted(f"*:{read.words[0]}: ")] if read.words else []
        yield f"                {command}) _arguments {' '.join(words)} ;;\n"
    yield f"                help) _arguments {quoted('1:command:(' + ' '.join(helps) + ')')} ;;\n"


def zsh(whole, helps):
    options = [word for option in whole.options for word in zsh_option(option)]
    commands = [quoted(f"{name}:{text.replace(':', chr(92) + ':')}") for name, text in whole.commands.items()]
    return ZSH.format(program=PROGRAM, options=" ".join(options), commands=" ".join(commands), words="".join(zsh_words(helps)))
