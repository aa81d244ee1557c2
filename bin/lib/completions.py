"""The completions of three shells, made from what the help texts of a program say."""

# what the arguments are called that name files
FILES = ("FILE", "ORDERS")
BASH = """\
# bash completion of {name}, made from its help texts

_{name}() {{
    local word=${{COMP_WORDS[COMP_CWORD]}} options= values= arguments= place=0 at
    if ((COMP_CWORD == 1)); then
        mapfile -t COMPREPLY < <(compgen -W "{commands}" -- "$word")
        return
    fi
    case ${{COMP_WORDS[1]}} in
{cases}
    esac
    # the place of the word among the arguments: options, and the values of options, have none
    for ((at = 2; at < COMP_CWORD; at++)); do
        case " $values " in
        *" ${{COMP_WORDS[at]}} "*) ((at++)) ;;
        *) [[ ${{COMP_WORDS[at]}} == -* ]] || ((place++)) ;;
        esac
    done
    COMPREPLY=()
    ((at == COMP_CWORD)) || return
    if [[ $word == -* ]]; then
        mapfile -t COMPREPLY < <(compgen -W "$options" -- "$word")
    else
        local -a names=($arguments)
        case ${{names[place]}} in
        {files})
            compopt -o filenames 2> /dev/null
            mapfile -t COMPREPLY < <(compgen -f -- "$word")
            ;;
        COMMAND) mapfile -t COMPREPLY < <(compgen -W "{names}" -- "$word") ;;
        esac
    fi
}}

complete -F _{name} {name}
"""
ZSH = """\
#compdef {name}
# zsh completion of {name}, made from its help texts

_{name}() {{
    local context state line
    local -a commands=(
{commands}
    )
    _arguments -C {options} '1: :->command' '*:: :->words'
    case $state in
    command) _describe command commands ;;
    words)
        case $words[1] in
{cases}
        esac
        ;;
    esac
}}

_{name} "$@"
"""


def flags(options):
    """Returns all names of options."""
    return [name for it in options for name in (it.short, it.name) if name]


def bash_case(name, said):
    """Returns the lines of bash for a subcommand: its options, those that take a value, and its arguments."""
    values = " ".join(it.name for it in said.options if it.value)
    arguments = " ".join(it.shown for it in said.arguments)
    options = " ".join(flags(said.options))
    return f'    {name}) options="{options}" values="{values}" arguments="{arguments}" ;;'


def bash(name, program):
    """Returns the completion of bash. A file is completed by its name, and a code, a reference or a date not at all."""
    names = " ".join(program.each)
    commands = " ".join([*(it.shown for it in program.whole.commands), *flags(program.whole.options)])
    cases = [bash_case(*it) for it in program.each.items()] + ['    help) arguments="COMMAND" ;;']
    return BASH.format(name=name, names=names, commands=commands, cases="\n".join(cases), files=" | ".join(FILES))


def zsh_text(text):
    """Returns a text as it stands between single quotes in what describes an argument to zsh."""
    return text.translate({**{ord(it): f"\\{it}" for it in ":[]\\"}, ord("'"): "'\\''"})


def zsh_option(it):
    """Returns what describes an option to zsh."""
    value = f":{it.value}: " if it.value else ""
    names = f"'({it.short} {it.name})'{{{it.short},{it.name}}}" if it.short else it.name
    return f"{names}'[{zsh_text(it.help)}]{value}'"


def zsh_case(name, said):
    """Returns the lines of zsh for a subcommand."""
    places = [f"'{at}:{it.shown}:{'_files' if it.shown in FILES else ' '}'"
              for at, it in enumerate(said.arguments, 1)]
    words = " \\\n                ".join([*map(zsh_option, said.options), *places])
    return f"        {name})\n            _arguments \\\n                {words}\n            ;;"


def zsh(name, program):
    """Returns the completion of zsh."""
    commands = "\n".join(f"        '{it.shown}:{zsh_text(it.help)}'" for it in program.whole.commands)
    options = " ".join(map(zsh_option, program.whole.options))
    cases = [zsh_case(*it) for it in program.each.items()]
    cases.append("        help) _describe command commands ;;")
    return ZSH.format(name=name, commands=commands, options=options, cases="\n".join(cases))


def fish_text(text):
    """Returns a text between single quotes, for fish."""
    return "'" + text.replace("\\", "\\\\").replace("'", "\\'") + "'"


def fish_option(name, when, it):
    """Returns the line of fish for an option."""
    short = f" -s {it.short[1:]}" if it.short else ""
    value = " -x" if it.value else ""
    return f"complete -c {name} -n {fish_text(when)}{short} -l {it.name[2:]}{value} -d {fish_text(it.help)}"


def fish(name, program):
    """Returns the completion of fish, which takes files wherever a subcommand has one among its arguments."""
    first = "__fish_use_subcommand"
    lines = [f"# fish completion of {name}, made from its help texts", f"complete -c {name} -f"]
    for it in program.whole.commands:
        lines.append(f"complete -c {name} -n {first} -a {it.shown} -d {fish_text(it.help)}")
    lines += [fish_option(name, first, it) for it in program.whole.options]
    for command, said in program.each.items():
        when = f"__fish_seen_subcommand_from {command}"
        if any(it.shown in FILES for it in said.arguments):
            lines.append(f"complete -c {name} -n {fish_text(when)} -F")
        lines += [fish_option(name, when, it) for it in said.options]
    names = " ".join(program.each)
    lines.append(f"complete -c {name} -n '__fish_seen_subcommand_from help' -a {fish_text(names)}")
    return "\n".join(lines) + "\n"
