"""The manual page, made from what the program tells of itself."""
import re
import textwrap

# What a paragraph says as it is printed: what stands between backquotes, and options.
AS_PRINTED = re.compile(r"`([^`]+)`|(?<![\w-])(--[a-z][a-z-]*)")
MORE = "The pages docs/NAME.md that are named here are in the repository of dgc. `dgc explain CODE` prints what docs/RULES.md has of a code."


def plain(text):
    """A text that roff prints as it is, but for its first character."""
    return text.replace("\\", "\\e").replace("-", "\\-").replace("'", "\\(aq").replace("`", "\\(ga")


def bold(text):
    return f"\\fB{plain(text)}\\fR"


def italic(text):
    return f"\\fI{plain(text)}\\fR"


def printed(text):
    """What is printed or written so: bold, and in one line."""
    return f"\\%{bold(text)}".replace(" ", "\\~")


def paragraph(text):
    """A paragraph in short lines. No mark of roff begins one."""
    found, at = "", 0
    for one in AS_PRINTED.finditer(text):
        found += plain(text[at:one.start()]) + printed(one[1] or one[2])
        at = one.end()
    lines = textwrap.wrap(found + plain(text[at:]), 79, break_long_words=False, break_on_hyphens=False)
    return "\n".join(f"\\&{line}" if line.startswith((".", "\\(aq")) else line for line in lines)


def usage(name, text):
    """How a command is called: `<NAME>` of the help in italics, and options in bold."""
    found = [bold(f"dgc {name}")]
    for word in text.split()[1:]:
        inner = word.strip("<>[]")
        shown = bold(word) if word.startswith("-") else italic(inner)
        found.append(f"[{shown}]" if word.startswith("[") else shown)
    return " ".join(found)


def tagged(tag, text):
    return f".TP\n{tag}\n{paragraph(text)}\n"


def option(one):
    names = ", ".join(bold(name) for name in (one.short, one.long) if name)
    return tagged(names + (f" {italic(one.value)}" if one.value else ""), one.text)


def statuses(help):
    return "".join(tagged(row.name, row.text) for row in help.statuses)


def command(name, help):
    """The part of the page on one command."""
    text = f".SS dgc {name}\n{paragraph(help.about)}.\n"
    text += "".join(tagged(italic(argument.name), argument.text) for argument in help.arguments)
    text += "".join(option(one) for one in help.options)
    text += "".join(f".PP\n{paragraph(one)}\n" for one in help.paragraphs)
    return text + (f".PP\nExit status:\n{statuses(help)}" if help.statuses else "")


def manual(told):
    first, _, rest = told.top.about.partition(". ")
    other = [row for row in told.top.commands if row.name not in told.helps]
    return "".join([
        f'.\\" made from what `dgc --help` prints\n.TH DGC 1 "" "dgc {told.version}" "User Commands"\n',
        f".SH NAME\n{paragraph(f'dgc - {first[0].lower()}{first[1:]}')}\n",
        ".SH SYNOPSIS\n.nf\n", *[f"{usage(name, help.usage)}\n" for name, help in told.helps.items()], ".fi\n",
        f".SH DESCRIPTION\n{paragraph(f'{first}. {rest}')}\n",
        ".SH OPTIONS\n", *[option(one) for one in told.top.options],
        ".SH COMMANDS\n", *[command(name, help) for name, help in told.helps.items()],
        *[f".SS dgc {row.name}\n{paragraph(row.text)}.\n" for row in other],
        f".SH EXIT STATUS\n{statuses(told.top)}",
        f".SH MORE\n{paragraph(MORE)}\n",
    ])
