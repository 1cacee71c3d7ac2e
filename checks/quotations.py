"""The clauses and definitions that docs/PROMISE.md and CLAUSES.md quote, from their files."""
import re
import textwrap


class Missing(Exception):
    """A quotation that names what its file does not have."""


def until_closed(text, start):
    """The text from `start` to the bracket that closes the first one after it."""
    depth = 0
    for at in range(text.index("{", start), len(text)):
        depth += {"{": 1, "}": -1}.get(text[at], 0)
        if depth == 0:
            return text[start : at + 1]
    raise Missing("a bracket that is never closed")


def of_function(source, name):
    """Each function of the name, up to the next one: Type::name stands in an impl of Type."""
    owner, _, name = name.rpartition("::")
    heads = [*re.finditer(r"^[ \t]*(?:pub(?:\(\w+\))?\s+)?(?:const\s+)?fn (\w+)", source, re.M)]
    ends = [head.start() for head in heads[1:]] + [len(source)]
    for head, end in zip(heads, ends):
        within = re.findall(r"^impl\b.*", source[: head.start()], re.M)
        if head[1] == name and (not owner or within and re.search(rf"\b{owner}\b", within[-1])):
            yield source[head.start() : end]


def of_type(source, name):
    """The type of the name and each impl of it, up to the bracket that closes it."""
    head = rf"^(?:pub )?(?:struct|enum|trait|impl)\b[^{{\n]*\b{name}\b.*?^\}}"
    yield from re.findall(head, source, re.S | re.M)


def of_definition(source, name):
    """The definition of the name, up to the empty line after it, no comment with it."""
    head = rf"^(?P<deep> *)(?:(?:pub|abbrev|record|data|unfoldable) )*{name}\b.*?(?=\n\s*\n|\Z)"
    found = re.search(head, source, re.S | re.M)
    if found:
        lines = found[0].splitlines()
        return "\n".join(line for line in lines if not line.lstrip().startswith("--"))
    raise Missing(name)


def fields_of(text, fields):
    """The named fields of a record, each up to the next one."""
    for field in fields:
        found = re.search(rf"^ *pub {field} :.*?(?=^ *pub \w+ :|\Z)", text, re.S | re.M)
        if not found:
            raise Missing(field)
        yield found[0].rstrip("\n")


def clauses_of(source, name, wanted):
    """The named clauses of a function or a type; with no names those that have none."""
    parts = [*of_function(source, name), *of_type(source, name)]
    for clause in wanted or [""]:
        kind, word = ("ghost", clause[6:]) if clause.startswith("ghost ") else ("ensures", clause)
        head = rf"^[ \t]*{kind}{' ' if word else ''}{re.escape(word)} (?:= )?{{"
        found = [(part, it.start()) for part in parts for it in re.finditer(head, part, re.M)]
        if not found:
            raise Missing(f"{name}: {clause}")
        yield until_closed(*found[0])


def quoted(place, top):
    """The text that stands at the place, without the space in front of all of its lines."""
    file, name, *rest = place.split(": ")
    wanted = rest[0].split(", ") if rest else []
    source = (top / file).read_text()
    if not file.endswith(".antt"):
        found = [*clauses_of(source, name, wanted)]
    elif wanted:
        found = [*fields_of(of_definition(source, name), wanted)]
    else:
        found = [of_definition(source, name)]
    return "\n".join(textwrap.dedent(text) for text in found)


def block(place, page, top):
    """The quotation of the place, as a block of the page."""
    try:
        return f"```\n{place}\n{quoted(place, top)}\n```"
    except (Missing, OSError, ValueError) as why:
        raise SystemExit(f"{page}: {place} is not there: {why}") from why


def filled(page, top):
    """The page with the text of each quotation after the line that names its place, and how many
    there are."""

    def anew(match):
        return block(match[1].split("\n", 1)[0].strip(), page, top)

    return re.subn(r"^```\n(crates/.*?)^```$", anew, (top / page).read_text(), flags=re.S | re.M)


def made(words, top):
    """The page that is made of these words, and how many quotations it has: each line that begins
    with crates/ names the place of one."""

    def anew(match):
        return block(match[0].strip(), words, top)

    return re.subn(r"^crates/.*$", anew, (top / words).read_text(), flags=re.M)
