"""A page in Markdown: its blocks of code, its headings, its links, and what stands in backquotes in its text."""
import dataclasses
import re

FENCE = re.compile(r"^( *)(`{3,}|~{3,})(.*)$")
HEADING = re.compile(r"^#{1,6} +(.*?) *#*$")
QUOTED = re.compile(r"(?<!`)(`+)(?!`)(.+?)(?<!`)\1(?!`)", re.DOTALL)
LINK = re.compile(r"\[[^\[\]]*\]\(([^()\s]+)\)")
INDENT = "    "


@dataclasses.dataclass
class Block:
    """A block of code: the line in which its text begins, the words of its info string, its lines; indented ones have no fence."""
    line: int
    info: list
    lines: list
    is_fenced: bool = True

    def kind(self):
        return self.info[0] if self.info else ""


@dataclasses.dataclass
class Paragraph:
    """Lines of text that belong together; `line` is the number of the first."""
    line: int
    text: str

    def line_at(self, place):
        return self.line + self.text.count("\n", 0, place)


class Page:
    """What a text has, each with its line."""

    def __init__(self, text):
        self.lines = text.splitlines()
        self.blocks, self.paragraphs = [], []
        self._read()

    def _read(self):
        at = 0
        while at < len(self.lines):
            fence = FENCE.match(self.lines[at])
            if fence:
                at = self._fenced(at, fence)
            elif self._is_indented(at):
                at = self._indented(at)
            else:
                self._text(at)
                at += 1

    def _fenced(self, at, fence):
        indent, mark, info = fence.groups()
        end = next((n for n in range(at + 1, len(self.lines)) if self.lines[n].strip().startswith(mark)), len(self.lines))
        lines = [line.removeprefix(indent) for line in self.lines[at + 1:end]]
        self.blocks.append(Block(at + 2, info.split(), lines))
        return end + 1

    def _is_indented(self, at):
        return self.lines[at].startswith(INDENT) and (at == 0 or not self.lines[at - 1].strip())

    def _indented(self, at):
        end = at
        while end < len(self.lines) and (self.lines[end].startswith(INDENT) or not self.lines[end].strip()):
            end += 1
        while not self.lines[end - 1].strip():
            end -= 1
        self.blocks.append(Block(at + 1, [], [line.removeprefix(INDENT) for line in self.lines[at:end]], False))
        return end

    def _text(self, at):
        line = self.lines[at]
        last = self.paragraphs[-1] if self.paragraphs else None
        if not line.strip():
            return
        if last and last.line + last.text.count("\n") + 1 == at + 1 and not line.lstrip().startswith(("|", "#", "- ", "* ")):
            last.text += "\n" + line
        else:
            self.paragraphs.append(Paragraph(at + 1, line))

    def headings(self):
        """The anchors of all headings, as GitHub makes them."""
        found, seen = [], {}
        for paragraph in self.paragraphs:
            heading = HEADING.match(paragraph.text)
            if heading:
                anchor = anchor_of(heading.group(1))
                count = seen.get(anchor, 0)
                seen[anchor] = count + 1
                found.append(f"{anchor}-{count}" if count else anchor)
        return found

    def words_put_in(self):
        """The words of the lines that the page's changes put into the sources."""
        lines = [line for block in self.blocks if block.kind() == "diff" for line in block.lines if line.startswith("+")]
        return set(re.findall(r"\w+", " ".join(lines)))

    def quoted(self):
        """What stands in backquotes in the text, with its line."""
        for paragraph in self.paragraphs:
            for found in QUOTED.finditer(paragraph.text):
                yield paragraph.line_at(found.start()), " ".join(found.group(2).replace("\\|", "|").split())

    def links(self):
        """The targets of the links, with their lines; what stands in backquotes is no link."""
        for paragraph in self.paragraphs:
            text = QUOTED.sub(lambda found: "x" * len(found.group(0)), paragraph.text)
            for found in LINK.finditer(text):
                yield paragraph.line_at(found.start()), found.group(1)


def anchor_of(heading):
    text = re.sub(r"\[([^\]]*)\]\([^)]*\)", r"\1", heading).lower()
    return re.sub(r"[^\w\- ]", "", text).strip().replace(" ", "-")


def commands_in(lines):
    """The commands of a block that shows them with their output: each with its place in the block and the lines below it."""
    found = []
    for at, line in enumerate(lines):
        if line.startswith("$ "):
            found.append((at, line[2:], []))
        elif found and found[-1][1].endswith("\\") and not found[-1][2]:
            place, command, output = found[-1]
            found[-1] = (place, command[:-1] + line.strip(), output)
        elif found:
            found[-1][2].append(line)
    return found


def without_comment(line):
    """A line of a shell without the comment after it."""
    return re.sub(r"(^|\s)#.*$", "", line).strip()
