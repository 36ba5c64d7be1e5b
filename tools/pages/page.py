"""A page of Markdown: its fenced blocks, its prose, its links and the anchors of its headings."""

import re
from pathlib import Path

FENCE = re.compile(r" *(`{3,})([^`]*)$")
LINK = re.compile(r"\[[^\[\]]*\]\(([^()\s]+)(?: \"[^\"]*\")?\)|^\[[^\]]+\]: (\S+)", re.M)
HEADING = re.compile(r"^#{1,6} (.+?)(?: #+)?$", re.M)


class Block:
    """A fenced block: the number of its first line, the words after its fence, and its text."""

    def __init__(self, line, words):
        self.line, self.words, self.text = line, words, ""

    def is_excerpt(self):
        """Returns true if the second word after the fence is the path of a file."""
        return len(self.words) == 2 and "/" in self.words[1]


class Page:
    """A page of Markdown. `name` is its path from the top of the repository. Its prose has empty lines for blocks."""

    def __init__(self, name, text):
        self.name, self.text = name, text
        self.blocks, prose, fence = [], [], ""
        for number, line in enumerate(text.split("\n"), 1):
            head = FENCE.match(line)
            if not fence and head:
                self.blocks.append(Block(number + 1, head[2].split()))
                fence, line = head[1], ""
            elif fence:
                fence = "" if line.strip() == fence else fence
                self.blocks[-1].text += f"{line}\n" if fence else ""
                line = ""
            prose.append(line)
        self.prose = "\n".join(prose)

    def line_of(self, at):
        """Returns the number of the line in which a place of the prose is."""
        return self.prose.count("\n", 0, at) + 1

    def links(self):
        """Yields the line and the target of each link of the prose."""
        prose = re.sub(r"(`+).*?\1", "code", self.prose)
        for link in LINK.finditer(prose):
            yield prose.count("\n", 0, link.start()) + 1, link[1] or link[2]

    def anchors(self):
        """Returns the anchors of the headings, as GitHub names them."""
        found = {}
        for heading in HEADING.findall(self.prose):
            text = re.sub(r"\[([^\]]*)\]\([^)]*\)", r"\1", heading).replace("`", "").lower()
            anchor = re.sub(r"[^\w\- ]", "", text.strip()).replace(" ", "-")
            found[anchor] = found.get(anchor, -1) + 1
            if found[anchor]:
                found[f"{anchor}-{found[anchor]}"] = 0
        return set(found)


def pages_of(top):
    """Returns all pages of the repository, except those in folders of builds and links to others."""
    found = []
    for path in sorted(Path(top).rglob("*.md")):
        name = path.relative_to(top)
        is_built = {"out", "target"} & set(name.parts) or name.parts[0].startswith(".")
        if not is_built and not path.is_symlink():
            found.append(Page(str(name), path.read_text(encoding="utf-8")))
    return found
