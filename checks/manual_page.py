"""The parts of the manual page that repeat the program's help."""
import re

from completions import commands_of, section


def roff(text):
    """The text for the manual page, which takes a hyphen and a backslash otherwise."""
    return text.replace("\\", "\\e").replace("-", "\\-")


def shown(value):
    word = f"\\fI{value.name}\\fR"
    return word if value.is_required else f"[{word}]"


def with_value(option):
    values = "".join(f" {shown(value)}" for value in option.values)
    return f"\\fB\\-\\-{roff(option.long)}\\fR{values}"


def own_options(command):
    """The options of a command, without those that every command has."""
    return [option for option in command.options if option.long not in ("verbose", "help")]


def usage(command):
    options = [f"[{with_value(option)}]" for option in own_options(command)]
    return " ".join([f"\\fB{command.name}\\fR", *options, *map(shown, command.values)])


def sentence(text):
    return roff(text if text.endswith(".") else text + ".")


def of_command(command):
    """What the help says of a command, as an item of a list with its words below it."""
    lines = [".TP", usage(command), sentence(command.about)]
    words = [(f"\\fI{value.name}\\fR", value.help) for value in command.values]
    words += [(with_value(option), option.help) for option in own_options(command)]
    lines.append(".RS")
    for word, told in words:
        lines += [".TP", word, sentence(told)]
    return [*lines, ".RE"]


def of_synopsis(commands):
    lines = []
    for command in commands[1:]:
        lines += [".B syn", f"[\\fB\\-v\\fR] {usage(command)}", ".br"]
    return lines[:-1]


def of_options(command):
    lines = []
    for option in command.options:
        lines += [".TP", f"\\fB\\-{option.short}\\fR, {with_value(option)}", sentence(option.help)]
    return lines


def of_table(lines, is_named):
    """The exit statuses or the refusals, each with what it means."""
    made = []
    for line in lines:
        head, told = re.match(r"\s*(\d+(?: \w+(?=:))?):? +(.*)", line).groups()
        made += [".TP", f"\\fB{head}\\fR" if is_named else f".B {head}", sentence(told)]
    return made


def parts(helps):
    """Each part that the page takes from the help, by its name there."""
    commands = commands_of(helps)
    made = {command.name: of_command(command) for command in commands[1:]}
    made["synopsis"] = of_synopsis(commands)
    made["options"] = of_options(commands[0])
    made["statuses"] = of_table(section(helps[""], "Exit status"), False)
    made["refusals"] = of_table(section(helps[""], "Refusals"), True)
    return made


def filled(page, helps):
    """The page with each part as the help has it, between the lines that name it, and how many
    there are."""
    made = parts(helps)

    def part(match):
        return "\n".join([match[1], *made.pop(match[2]), '.\\" end'])

    found = re.subn(r'^(\.\\" from the help: (\w+))\n.*?^\.\\" end$', part, page, flags=re.S | re.M)
    if made:
        raise SystemExit(f"man/syn.1 has no part for {', '.join(made)}")
    return found
