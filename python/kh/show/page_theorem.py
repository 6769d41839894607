"""The page of the theorem that moves keep the table: `docs/INVARIANCE.md` as HTML, with its pictures.

It reads as much of Markdown as that page has: heads, paragraphs, lists, tables, pictures, and blocks of code. Links lead to parts of the page;
what is linked elsewhere stands as plain text.
"""
import os
import re
from html import escape

from ..commands import given
from ..places import DOCS
from .page_html import whole

FILE = os.path.join(DOCS, "INVARIANCE.md")
PICTURE = re.compile(r"!\[([^\]]*)\]\((pictures/[\w-]+\.svg)\)")
# What stands in a line: code, a link, bold and slanted letters.
INLINE = re.compile(r"`([^`]+)`|\[([^\]]+)\]\(([^)]+)\)|\*\*([^*]+)\*\*|\*([^*]+)\*")
ITEM = re.compile(r"(?:-|\d+\.) ")


def pictures():
    """The pictures of the page, as it names them."""
    return {name for _, name in PICTURE.findall(given([FILE]))}


def name_of(head):
    """The name to which links to a head lead."""
    return re.sub(r"[^\w -]", "", head.lower()).replace(" ", "-")


def inline(text):
    """A text with its code, links and letters."""
    parts, end = [], 0
    for it in INLINE.finditer(text):
        parts.append(escape(text[end : it.start()]))
        code, linked, where, bold, slanted = it.groups()
        if code:
            parts.append(f"<code>{escape(code)}</code>")
        elif linked:
            parts.append(f'<a href="{escape(where)}">{inline(linked)}</a>' if where.startswith("#") else inline(linked))
        else:
            parts.append(f"<b>{inline(bold)}</b>" if bold else f"<i>{inline(slanted)}</i>")
        end = it.end()
    return "".join(parts) + escape(text[end:])


def table(lines):
    """A table: its heads, a line of rules, its rows."""
    rows = [[inline(it.strip()) for it in line.strip("|").split("|")] for line in lines]
    head = "".join(f'<th scope="col">{it}</th>' for it in rows[0])
    body = "".join(f"<tr>{''.join(f'<td>{it}</td>' for it in row)}</tr>" for row in rows[2:])
    return f'<div class="scroll"><table class="list"><thead><tr>{head}</tr></thead><tbody>{body}</tbody></table></div>'


def items(lines):
    """A list, whose items may go on over lines."""
    kind, found = "ul" if lines[0].startswith("-") else "ol", []
    for line in lines:
        if ITEM.match(line):
            found.append(ITEM.sub("", line, count=1))
        else:
            found[-1] += f" {line.strip()}"
    return f"<{kind}>{''.join(f'<li>{inline(it)}</li>' for it in found)}</{kind}>"


def block(text, base):
    """A block between blank lines."""
    lines, picture = text.splitlines(), PICTURE.fullmatch(text)
    size = len(lines[0]) - len(lines[0].lstrip("#"))
    if size:
        head = lines[0][size:].strip()
        return f'<h{size} id="{name_of(head)}">{inline(head)}</h{size}>'
    if picture:
        return f'<p><img src="{base}/{picture[2]}" alt="{escape(picture[1])}"></p>'
    if text.startswith("```"):
        return f"<pre>{escape(chr(10).join(lines[1:-1]))}</pre>"
    if text.startswith("|"):
        return table(lines)
    return items(lines) if ITEM.match(text) else f"<p>{inline(' '.join(lines))}</p>"


def theorem_page(base, head):
    """The page, as it is served."""
    blocks = [block(it.strip("\n"), base) for it in re.split(r"\n\n+", given([FILE])) if it.strip()]
    return whole("Moves keep the table", head, ['<article class="theorem">', *blocks, "</article>"], True)
