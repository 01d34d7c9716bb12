"""Completions of the program's words for bash, zsh and fish: subcommands, options, and files of the kind that is wanted."""

# How the files end that an argument names.
ENDS = {"CONFIG": "config", "LOG": "log", "SCRIPT": "script", "TEXT": "s", "FILE": "out"}
NEW = "Makes a folder with a driver, a client and their machine"


def end_of(subcommand, argument):
    """How a file ends that this argument of a subcommand names, if it names one."""
    if subcommand.name == "db" and argument == "SCRIPT":
        return "db"
    return ENDS.get(argument)


def with_values(helps):
    """The options that a value follows."""
    return list(dict.fromkeys(it.name for each in helps for it in each.options if it.value))


def bash(helps):
    cases = []
    for it in helps:
        ends = " ".join(end_of(it, word) or "''" for word, _ in it.arguments)
        options = " ".join(each.name for each in it.options)
        cases.append(f'        {it.name}) ends=({ends}); options="{options}" ;;')
    names = " ".join([*(it.name for it in helps), "new", "help", "--help", "--version"])
    values = " | ".join(it for it in with_values(helps) if it != "--save")
    return f"""# Completion of mx's words for bash.
_mx() {{
    local word=${{COMP_WORDS[COMP_CWORD]}} before=${{COMP_WORDS[COMP_CWORD-1]}} ends options at count=0
    if [ "$COMP_CWORD" = 1 ]; then
        mapfile -t COMPREPLY < <(compgen -W "{names}" -- "$word")
        return
    fi
    case ${{COMP_WORDS[1]}} in
{chr(10).join(cases)}
        help) mapfile -t COMPREPLY < <(compgen -W "{names}" -- "$word"); return ;;
        new) mapfile -t COMPREPLY < <(compgen -W "--c" -- "$word"); return ;;
        *) return ;;
    esac
    case $before in
        --save) mapfile -t COMPREPLY < <(compgen -f -- "$word"); return ;;
        {values}) return ;;
    esac
    if [[ $word == -* ]]; then
        mapfile -t COMPREPLY < <(compgen -W "$options" -- "$word")
        return
    fi
    for ((at = 2; at < COMP_CWORD; at++)); do
        case ${{COMP_WORDS[at]}} in
            --save | {values}) ((at++)) ;;
            -*) ;;
            *) ((count++)) ;;
        esac
    done
    compopt -o filenames 2>/dev/null
    # Files of the kind that is wanted here, and folders; any file if there is none.
    mapfile -t COMPREPLY < <(compgen -f -X "!*.${{ends[count]-}}" -- "$word"; compgen -d -- "$word")
    [ ${{#COMPREPLY[@]}} -gt 0 ] || mapfile -t COMPREPLY < <(compgen -f -- "$word")
}}
complete -F _mx mx ./mx ../mx
"""


def zsh_text(text):
    for special in ("\\", "[", "]", ":"):
        text = text.replace(special, "\\" + special)
    return text.replace("'", "'\\''")


def zsh_case(it):
    words = []
    for option in it.options:
        tail = f":{option.value}:" + ("_files" if option.value == "LOG" else "") if option.value else ""
        words.append(f"'{option.name}[{zsh_text(option.about)}]{tail}'")
    for at, (word, _) in enumerate(it.arguments, 1):
        end = end_of(it, word)
        words.append(f"'{at}:{word}:" + (f"_files -g \"*.{end}(-.)\"'" if end else "'"))
    return f"    {it.name}) _arguments " + " ".join(words) + " ;;"


def zsh(helps):
    names = " ".join(f"'{it.name}:{zsh_text(it.about)}'" for it in helps)
    cases = "\n".join(map(zsh_case, helps))
    return f"""#compdef mx
# Completion of mx's words for zsh.
local -a names=({names} 'new:{NEW}')
if (( CURRENT == 2 )); then
    _describe 'subcommand' names
    _values 'option' --help --version
    return
fi
shift words
(( CURRENT-- ))
case $words[1] in
{cases}
    new) _arguments '--c[Programs in C]' '1:NAME:' ;;
    help) _describe 'subcommand' names ;;
esac
"""


def fish_text(text):
    return "'" + text.replace("\\", "\\\\").replace("'", "\\'") + "'"


def fish(helps):
    lines = ["# Completion of mx's words for fish.", "complete -c mx -f"]
    names = " ".join([*(it.name for it in helps), "new", "help"])
    first = f"-n 'not __fish_seen_subcommand_from {names}'"
    for name, about in [*((it.name, it.about) for it in helps), ("new", NEW)]:
        lines.append(f"complete -c mx {first} -a {name} -d {fish_text(about)}")
    for it in helps:
        here = f"-n '__fish_seen_subcommand_from {it.name}'"
        for end in dict.fromkeys(filter(None, (end_of(it, word) for word, _ in it.arguments))):
            lines.append(f"complete -c mx {here} -k -a '(__fish_complete_suffix .{end})'")
        for option in it.options:
            value = " -r" + (" -F" if option.value == "LOG" else "") if option.value else ""
            lines.append(f"complete -c mx {here} -l {option.name[2:]}{value} -d {fish_text(option.about)}")
    lines.append("complete -c mx -n '__fish_seen_subcommand_from new' -l c -d 'Programs in C'")
    return "\n".join(lines) + "\n"


def completions(helps):
    """The texts by their files' names."""
    return {"mx.bash": bash(helps), "_mx": zsh(helps), "mx.fish": fish(helps)}
