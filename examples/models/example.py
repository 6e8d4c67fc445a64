"""An example: a file, its text and its expected answer."""

import re
import textwrap

import vd


def wrapped(text, indent="", further=""):
    """The text in lines of at most 100 columns. What stands in backquotes is not broken, nor is a
    variable's value; the backquotes are left out."""
    def tied(match):
        return match.group().strip("`").replace(" ", "\0")
    text = re.sub(r"`[^`]*`|\w+ = \d+", tied, text)
    return textwrap.fill(text, 100, initial_indent=indent, subsequent_indent=further,
                         break_on_hyphens=False).replace("\0", " ")


class Example:
    """`words` are paragraphs in plain words, `answer` is the report that the checker must give.
    The file is the diagram's, unless `file` is given: bytes that no diagram has."""

    def __init__(self, name, words, diagram, answer, file=None):
        self.name, self.diagram, self.answer = name, diagram, answer
        self.words = [" ".join(paragraph.split()) for paragraph in words.strip().split("\n\n")]
        self.file = diagram.to_bytes() if file is None else file

    def text(self):
        """What stands beside the file: the words, the report in words, the report, the tests, the
        file."""
        names, reading = self.diagram.system.names(), vd.Reading(self.file)
        tests = vd.tests_of(self.answer, reading)
        parts = [wrapped(paragraph) for paragraph in self.words]
        parts.append("The report in words:")
        parts.append("\n".join(wrapped(line, "    ", "        ")
                               for line in vd.explain(self.answer, reading, names, tests)))
        parts.append("answer: %s\ntests: %d" % (self.answer.hex(), tests))
        parts.append("\n".join(vd.lines(reading, names)))
        return "\n\n".join(parts) + "\n"
