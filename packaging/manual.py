"""Man pages of pg_message.h and of each of its calls, made of the header's comments."""

import re

# A comment and the prototype that follows it.
CALL = re.compile(r"^/\* ((?:[^*]|\*(?!/))*) \*/\n(\w[^;{]*?\b(pgmsg_\w+)\([^;]*\));", re.MULTILINE)

PAGE = """\
.TH {name} 3 "" "pg_message {version}"
.SH NAME
{name} \\- {summary}
.SH SYNOPSIS
.nf
.B #include <pg_message.h>
.PP
.B {synopsis}
.fi
.SH DESCRIPTION
{text}
.SH SEE ALSO
{others}
"""


def text_of(comment):
    """The words of a comment, each sentence on a line of its own and each paragraph after a line that begins one."""
    lines = (re.sub(r"^ \* ?", "", line).replace("\\", "\\\\") or "\n.PP\n" for line in comment.splitlines())
    return re.sub(r"([.:]) +(?=[A-Z0-9])", r"\1\n", " ".join(lines)).replace("\n ", "\n").replace(" \n", "\n")


def summary_of(text):
    """The first sentence of a text, as a page's name says it."""
    first = re.split(r"[.:]\s", text + "\n")[0]
    return first[0].lower() + first[1:]


def pages(header, version):
    """The name and the text of the page of all calls, and of each call's page."""
    introduction = re.match(r"/\* (.*?) \*/", header, re.DOTALL)[1]
    rules = text_of(introduction[introduction.index("No call"):])
    calls = [(name, text_of(comment), " ".join(prototype.split())) for comment, prototype, name in CALL.findall(header)]
    listed = "\n".join(f".TP\n.BR {name} (3)\n{summary_of(text)}" for name, text, _ in calls)
    yield "pgmsg", PAGE.format(
        name="pgmsg", version=version, summary="messages of the PostgreSQL wire protocol",
        synopsis="cc ... $(pkg-config --cflags --libs pg_message)", text=f"{rules}\n.SH CALLS\n{listed}",
        others="The chapter Frontend/Backend Protocol of the PostgreSQL documentation.")
    for name, text, prototype in calls:
        yield name, PAGE.format(name=name, version=version, summary=summary_of(text), synopsis=f"{prototype};", text=text,
                                others=".BR pgmsg (3),\nwhich has the rules of all calls")
