"""What the program's help says of its commands, and the completions for three shells made of it."""
import re
import textwrap
import typing


def section(text, title):
    """The lines of a part of the help."""
    found = re.search(rf"^{title}:\n((?:  .*\n?)+)", text, re.M)
    return found[1].splitlines() if found else []


class Value(typing.NamedTuple):
    """A word that a command or an option takes."""

    name: str
    help: str
    is_required: bool

    def choices(self):
        """The words that it may be, where the help names them."""
        found = re.search(r"'(\w+)' or '(\w+)'", self.help)
        return list(found.groups()) if found else []

    def kind(self, is_served=False):
        """What a shell completes it with."""
        if self.choices():
            return "words"
        is_address = self.name == "ADDR" or self.help.startswith("HOST:PORT")
        is_side = self.help.endswith("HOST:PORT of its server") or "LEFT and RIGHT" in self.help
        if is_address or is_served and is_side:
            return "host"
        if self.name == "DIR":
            return "folder"
        files = ("FILE", "ARCHIVE", "SCRIPT", "LEFT", "RIGHT")
        return "file" if self.name in files else "none"


class Option(typing.NamedTuple):
    """A flag, or an option with its values."""

    short: str
    long: str
    values: list
    help: str


class Command(typing.NamedTuple):
    """The program without a command, or one of its commands."""

    name: str
    about: str
    values: list
    options: list


def value_of(line):
    shown, _, told = line.strip().partition("  ")
    return Value(shown.strip("<>[]"), told.strip(), shown.startswith("<"))


def option_of(line):
    shown, _, told = line.strip().partition("  ")
    found = re.fullmatch(r"(?:-(\w), )?--([\w-]+)((?: <\w+>)*)", shown)
    values = [Value(name, told.strip(), True) for name in re.findall(r"\w+", found[3])]
    return Option(found[1] or "", found[2], values, told.strip())


def command_of(name, text):
    values = [value_of(line) for line in section(text, "Arguments")]
    options = [option_of(line) for line in section(text, "Options")]
    return Command(name, text.split("\n\n")[0].strip(), values, options)


def commands_of(helps):
    """The program itself first, then each of its commands."""
    return [command_of(name, text) for name, text in helps.items()]


def shared_options(commands):
    """The options that every command has, and the program without one."""
    first, *others = commands
    return [option for option in first.options if all(option in it.options for it in others)]


NOTE = "Made by ./pages from the program's help"
BASH = {"file": "-f", "folder": "-d", "host": "-A hostname"}
ZSH = {"file": "_files", "folder": "_directories", "host": "_hosts", "none": ""}


def spelled(option):
    return [f"-{option.short}"] * bool(option.short) + [f"--{option.long}"]


def arms(pairs):
    """The arms of a `case` in bash, one for all patterns that do the same."""
    by_body = {}
    for pattern, body in pairs:
        by_body.setdefault(body, []).append(pattern)
    for body, patterns in by_body.items():
        head = textwrap.fill(
            " | ".join(patterns) + ")",
            92,
            initial_indent=" " * 8,
            subsequent_indent=" " * 12,
            break_long_words=False,
            break_on_hyphens=False,
        ).replace(" |\n", " | \\\n")
        yield f"{head}\n            {body}\n            ;;"


def bash(commands):
    names = " ".join([it.name for it in commands[1:]] + ["help"])
    options = [option for it in commands for option in it.options]
    counts = sorted({len(option.values) for option in options if option.values})
    lines = [
        f"# Completion of syn for bash. {NOTE}.",
        "_syn() {",
        "    local word=${COMP_WORDS[COMP_CWORD]} last=${COMP_WORDS[COMP_CWORD - 1]}",
        "    local command='' place=0 served='' options='' option='' wanted=0 i",
        "    for ((i = 1; i < COMP_CWORD; i++)); do",
        "        case ${COMP_WORDS[i]} in",
        "            --served) served=-served ;;",
    ]
    for count in counts:
        longs = sorted({f"--{it.long}" for it in options if len(it.values) == count})
        lines.append(f"            {' | '.join(longs)})")
        lines.append(f"                option=${{COMP_WORDS[i]}} wanted={count}")
        lines.append("                ;;")
    lines += [
        "            # An address is three words: HOST, a colon and PORT.",
        "            :) i=$((i + 1)) ;;",
        "            -* | =) ;;",
        "            *)",
        "                if [ $wanted -gt 0 ]; then",
        "                    wanted=$((wanted - 1))",
        '                elif [ -n "$command" ]; then',
        "                    place=$((place + 1))",
        "                else",
        "                    command=${COMP_WORDS[i]}",
        "                fi",
        "                ;;",
        "        esac",
        "    done",
        "    [ \"$word\" != = ] || word=''",
        "    COMPREPLY=()",
        "    case $word/$last in",
        "        :/* | */:) return ;;",
        "    esac",
        "    [ $wanted -gt 0 ] || option=''",
        "    local action=()",
        "    case $command$option$served in",
    ]
    valued = [(it.name, o.long, o.values[0]) for it in commands for o in it.options if o.values]
    lines += arms(
        (f"{name}--{long}-served", action(value, True))
        for name, long, value in valued
        if value.kind(True) != value.kind()
    )
    lines += arms((f"{name}--{long}*", action(value)) for name, long, value in valued)
    lines += [
        "    esac",
        '    if [ ${#action[@]} -gt 0 ]; then',
        '        [ "${action[0]}" != none ] || return 0',
        '        mapfile -t COMPREPLY < <(compgen "${action[@]}" -- "$word")',
        "        return 0",
        "    fi",
        "    case $command in",
    ]
    lines += arms(
        (it.name or "''", f"options='{' '.join(word for o in it.options for word in spelled(o))}'")
        for it in commands
    )
    lines += [
        "    esac",
        "    case $word/$last in",
        '        -*/*) mapfile -t COMPREPLY < <(compgen -W "$options" -- "$word"); return ;;',
        "    esac",
        "    case $command/$place$served in",
        "        /0* | help/0*)",
        f"            action=(-W '{names}')",
        "            ;;",
    ]
    places = [(it, n, value) for it in commands for n, value in enumerate(it.values)]
    lines += arms(
        (f"{it.name}/{n}-served", action(value, True))
        for it, n, value in places
        if value.kind(True) != value.kind()
    )
    lines += arms(
        (f"{it.name}/{n}*", action(value)) for it, n, value in places if value.kind() != "none"
    )
    lines += [
        "        *) return ;;",
        "    esac",
        '    mapfile -t COMPREPLY < <(compgen "${action[@]}" -- "$word")',
        "}",
        "complete -F _syn syn",
    ]
    return "\n".join(lines) + "\n"


def action(value, is_served=False):
    """What bash completes the value with, as the words of a list."""
    if value.choices():
        return f"action=(-W '{' '.join(value.choices())}')"
    return f"action=({BASH.get(value.kind(is_served), 'none')})"


def quoted(text):
    """The text within single quotes of a shell."""
    return text.replace("'", "'\\''")


def zsh_option(option):
    told = quoted(option.help.replace("[", "\\[").replace("]", "\\]").replace(":", "\\:"))
    values = "".join(f":{value.name}:{zsh_asked(value)}" for value in option.values)
    end = f"'\"{values}\"" if "$" in values else f"{values}'"
    if option.short:
        both = f"-{option.short},--{option.long}"
        return f"'(-{option.short} --{option.long})'{{{both}}}'[{told}]{end}"
    return f"'--{option.long}[{told}]{end}"


def zsh_asked(value):
    """What zsh completes the value with, by a variable where that depends on a flag."""
    return "$asked" if value.kind(True) != value.kind() else zsh_action(value)




def zsh_action(value):
    if value.choices():
        return f"({' '.join(value.choices())})"
    return ZSH[value.kind()]


def zsh(commands):
    shared = shared_options(commands)
    lines = [
        "#compdef syn",
        f"# Completion of syn for zsh. {NOTE}.",
        "_syn() {",
        "    local line state asked=_files",
        "    local -a commands shared",
        "    commands=(",
    ]
    lines += [f"        '{it.name}:{quoted(it.about)}'" for it in commands[1:]]
    lines += ["        'help:Explains the program, or a command'", "    )", "    shared=("]
    lines += [f"        {zsh_option(option)}" for option in shared]
    lines += ["    )", "    _arguments -C $shared \\"]
    lines += [f"        {zsh_option(o)} \\" for o in commands[0].options if o not in shared]
    lines += [
        "        '1:command:->command' '*::value:->values'",
        "    # A server's address stands in the place of a file.",
        "    if ((${words[(I)--served]})); then asked=_hosts; fi",
        "    case $state in",
        "        command) _describe command commands ;;",
        "        values)",
        "            case $line[1] in",
    ]
    for it in commands[1:]:
        words = [zsh_option(option) for option in it.options if option not in shared]
        words += [zsh_value(place, value) for place, value in enumerate(it.values, 1)]
        lines.append(f"                {it.name})")
        lines.append("                    _arguments $shared \\")
        lines += [f"                        {word} \\" for word in words[:-1]]
        lines += [f"                        {words[-1]}", "                    ;;"]
    lines += [
        "                help) _describe command commands ;;",
        "            esac",
        "            ;;",
        "    esac",
        "}",
        '_syn "$@"',
    ]
    return "\n".join(lines) + "\n"


def zsh_value(place, value):
    mark = '"' if value.kind(True) != value.kind() else "'"
    return f"{mark}{place}:{value.name}:{zsh_asked(value)}{mark}"


def fish(commands):
    names = " ".join([it.name for it in commands[1:]] + ["help"])
    lines = [
        f"# Completion of syn for fish. {NOTE}.",
        f"set -l commands {names}",
        'set -l first "not __fish_seen_subcommand_from $commands"',
        "complete -c syn -f",
    ]
    for it in commands[1:]:
        lines.append(f"complete -c syn -n $first -a {it.name} -d '{fish_text(it.about)}'")
    lines.append("complete -c syn -n $first -a help -d 'Explains the program, or a command'")
    lines.append("complete -c syn -n '__fish_seen_subcommand_from help' -a \"$commands\"")
    shared = shared_options(commands)
    lines += [f"complete -c syn {fish_option(option)}" for option in shared]
    for it in commands:
        seen = f"'__fish_seen_subcommand_from {it.name}'" if it.name else "$first"
        own = [option for option in it.options if option not in shared]
        lines += [f"complete -c syn -n {seen} {fish_option(option)}" for option in own]
        for value in it.values:
            if value.choices():
                lines.append(f"complete -c syn -n {seen} -a '{' '.join(value.choices())}'")
        if any(value.kind() in ("file", "folder") for value in it.values):
            lines.append(f"complete -c syn -n {seen} -F")
    return "\n".join(lines) + "\n"


def fish_text(text):
    return text.replace("\\", "\\\\").replace("'", "\\'")


def fish_option(option):
    short = f"-s {option.short} " if option.short else ""
    value = ""
    if option.values and option.values[0].choices():
        value = f" -x -a '{' '.join(option.values[0].choices())}'"
    elif option.values:
        value = " -r" if option.values[0].kind() in ("file", "folder") else " -x"
    return f"{short}-l {option.long}{value} -d '{fish_text(option.help)}'"


def files(helps):
    """The text of each file of completions/."""
    commands = commands_of(helps)
    return {"syn.bash": bash(commands), "_syn": zsh(commands), "syn.fish": fish(commands)}
