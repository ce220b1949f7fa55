"""The pages of this repository as HTML: headings, paragraphs, lists, tables, quotes, and blocks of code."""

import html
import re

CODE = re.compile(r"(`+)(.+?)\1")
LINK = re.compile(r"\[([^\][]*(?:\[[^\]]*\][^\][]*)*)\]\(([^)\s]+)\)")
PICTURE = re.compile(r"!\[([^\][]*)\]\(([^)\s]+)\)")
ITEM = re.compile(r"( *)(?:[-*+]|\d+\.) +(.*)$")
# What ends a paragraph before it.
BEGINS = re.compile(r"#+ |```|\||>| *(?:[-*+]|\d+\.) +")
KEPT = "\x00{}\x00"


def anchor(title):
    """The name by which a heading is linked to."""
    return re.sub(r"[^\w\- ]", "", title.lower()).replace(" ", "-")


def inline(text, link):
    """A text within a block; `link` gives where a link leads, or nothing where it leads nowhere here."""
    kept = []

    def keep(made):
        kept.append(made)
        return KEPT.format(len(kept) - 1)

    def code(found):
        inner = found[2].replace("\\|", "|")
        if len(found[1]) > 1 and inner.startswith(" ") and inner.endswith(" "):
            inner = inner[1:-1]
        return keep(f"<code>{html.escape(inner, quote=False)}</code>")

    def picture(found):
        to = link(found[2])
        return keep(f'<img alt="{html.escape(found[1])}" src="{html.escape(to)}">') if to else ""

    def anchor_of(found):
        to = link(found[2])
        return keep(f'<a href="{html.escape(to)}">') + found[1] + keep("</a>") if to else found[1]

    text = CODE.sub(code, text)
    text = LINK.sub(anchor_of, PICTURE.sub(picture, text))
    text = re.sub(r"\\([\\`*_{}\[\]()#+\-.!|<>~])", lambda found: keep(html.escape(found[1])), text)
    text = html.escape(text, quote=False)
    text = re.sub(r"\*\*(?=\S)(.+?)(?<=\S)\*\*", r"<strong>\1</strong>", text)
    text = re.sub(r"(?<![\w*])\*(?=\S)([^*]+?)(?<=\S)\*(?![\w*])", r"<em>\1</em>", text)
    return re.sub("\x00(\\d+)\x00", lambda found: kept[int(found[1])], text)


class Page:
    """A page's HTML, block by block. `fenced` may have something else made of a block of code; `row` gives what is put at the
    end of the first cell of a table's row, and behind the row."""

    def __init__(self, text, link, fenced=None, row=None):
        self.lines = text.splitlines()
        self.link = link
        self.fenced = fenced or (lambda kind, code: None)
        self.row = row or (lambda number: ("", ""))
        self.at = 0
        self.titles = []

    def inline(self, text):
        """A text within a block."""
        return inline(text, self.link)

    def more(self):
        """Whether lines are left."""
        return self.at < len(self.lines)

    def html(self):
        """The whole page."""
        made = []
        while self.more():
            block = self.block()
            if block:
                made.append(block)
        return "\n".join(made)

    def block(self):
        """The next block, or nothing for a line without text."""
        line = self.lines[self.at]
        if not line.strip():
            self.at += 1
            return ""
        makers = {"#+ ": self.heading, "```": self.code, "    ": self.indented, r"\|": self.table, ">": self.quote}
        for begins, make in makers.items():
            if re.match(begins, line):
                return make()
        if ITEM.match(line):
            return self.items(0)
        return f"<p>{self.inline(self.paragraph())}</p>"

    def heading(self):
        """A heading, with its anchor."""
        marks, title = self.lines[self.at].split(" ", 1)
        self.at += 1
        name = anchor(title.strip())
        self.titles.append((len(marks), title.strip(), name))
        return f'<h{len(marks)} id="{name}">{self.inline(title.strip())}</h{len(marks)}>'

    def code(self):
        """A block between fences."""
        kind = self.lines[self.at].strip("`").strip()
        end = next((n for n in range(self.at + 1, len(self.lines)) if self.lines[n].startswith("```")), len(self.lines))
        code = "".join(f"{line}\n" for line in self.lines[self.at + 1 : end])
        self.at = end + 1
        made = self.fenced(kind, code)
        return f"<pre>{html.escape(code, quote=False)}</pre>" if made is None else made

    def indented(self):
        """A block of code that is indented."""
        lines = []
        while self.more() and (self.lines[self.at].startswith("    ") or not self.lines[self.at].strip()):
            lines.append(self.lines[self.at][4:])
            self.at += 1
        code = "\n".join(lines).rstrip("\n")
        return f"<pre>{html.escape(code, quote=False)}\n</pre>"

    def quote(self):
        """What is quoted."""
        lines = []
        while self.more() and self.lines[self.at].startswith(">"):
            lines.append(self.lines[self.at].lstrip("> "))
            self.at += 1
        return f"<blockquote>{self.inline(' '.join(lines))}</blockquote>"

    def table(self):
        """A table, whose first row is its head."""
        rows = []
        while self.more() and self.lines[self.at].startswith("|"):
            cells = [cell.strip() for cell in re.split(r"(?<!\\)\|", self.lines[self.at].strip())[1:-1]]
            if set(self.lines[self.at]) <= set("|-: "):
                self.at += 1
                continue
            tag = "td" if rows else "th"
            within, behind = self.row(self.at) if rows else ("", "")
            shown = [self.inline(cell) for cell in cells]
            shown[:1] = [shown[0] + within]
            rows.append("<tr>" + "".join(f"<{tag}>{cell}</{tag}>" for cell in shown) + f"</tr>{behind}")
            self.at += 1
        return '<div class="wide"><table>\n' + "\n".join(rows) + "\n</table></div>"

    def paragraph(self):
        """The lines up to the end of a paragraph or of an item."""
        lines = [self.lines[self.at].strip()]
        self.at += 1
        while self.more() and self.lines[self.at].strip() and not BEGINS.match(self.lines[self.at]):
            lines.append(self.lines[self.at].strip())
            self.at += 1
        return " ".join(lines)

    def items(self, depth):
        """A list, with the lists within it."""
        kind = "ol" if re.match(r" *\d", self.lines[self.at]) else "ul"
        made = []
        while self.more():
            found = ITEM.match(self.lines[self.at])
            if not found or len(found[1]) < depth:
                break
            if len(found[1]) > depth and made:
                made[-1] += self.items(len(found[1]))
                continue
            self.lines[self.at] = found[2]
            made.append(self.inline(self.paragraph()))
            if self.lines[self.at : self.at + 1] == [""] and ITEM.match("".join(self.lines[self.at + 1 : self.at + 2])):
                self.at += 1
        return f"<{kind}>" + "".join(f"<li>{item}</li>" for item in made) + f"</{kind}>"
