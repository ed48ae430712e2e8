"""Reads the text of `mmdetect explain`: each line with its number and its reply, and what stands below it."""
import re
from dataclasses import dataclass, field

K, L = r"(\d+\.\d+)", r"(\d+\.\d+)"
HEADING = re.compile(r"( *\d+)(?:  (.*))?")
INDENT = " " * 9
WAITS = re.compile(rf"{K} waits (?:on )?for resource (\d+), which {K} owns(?: now)?")
NO_LONGER = re.compile(rf"{K} waits no longer")
BEGINS = re.compile(rf"{K} begins, with the labels of its process: private {L}, public {L}")
ENDS = re.compile(rf"{K} ends, and its process is free")
LABEL = re.compile(rf"{K} makes the label {L}, private and public \(before: private {L}, public {L}\)")
RAISE = re.compile(rf"{K} raises its public label from {L} to {L}, the public label of its holder {K}")
CONVICTED = re.compile(rf"{K} is convicted: {L} is its private label, its public one, and that of {K}")
CLOSES = re.compile(r"this closes the cycle ([\d.]+(?: -> [\d.]+)+)")
ROUND = re.compile(r"so it has gone round the cycle ([\d.]+(?: -> [\d.]+)+)")
GREATEST = re.compile(rf"the greatest private label on it is {L}, that of {K}")
GOES = re.compile(rf"resource (\d+) goes to {K}, which waited the longest for it")
FREE = re.compile(r"resource (\d+) is free")
OWNS = re.compile(rf"{K} owns resource (\d+) now")
OTHERS = [re.compile(part) for part in (
    r"processes \d+, resources \d+, label limit \d+, generation limit \d+", r".*; nothing changes",
    rf"its holder {K} shows {L}, which is not greater than {L}", r"it has its verdict already",
    rf"no verdict: its label is {L}, and its holder {K} shows {L}", r"no label to raise, and no verdict to give",
    rf"no verdict: its public label {L} is another's, its private one is {L}",
    rf"{K} waits for nothing; private label {L}, public label {L}",
    rf"{K} waits(?: under a verdict)?, for resource \d+; private label {L}, public label {L}",
)]  # fmt: skip


@dataclass
class Part:
    """A line of a script as it is explained."""

    number: int
    line: str
    below: list[str] = field(default_factory=list)

    def found(self, pattern: re.Pattern) -> list[tuple]:
        """What the lines below say that are of this form."""
        return [match.groups() for text in self.below if (match := pattern.fullmatch(text))]


KNOWN = [WAITS, NO_LONGER, BEGINS, ENDS, LABEL, RAISE, CONVICTED, CLOSES, ROUND, GREATEST, GOES, FREE, OWNS, *OTHERS]


def parts_of(text: str) -> list[Part]:
    """The lines, each with what stands below it. A reply that stands below its line is joined to it."""
    parts: list[Part] = []
    for line in text.split("\n")[:-1]:
        if line.startswith(" " * 39):
            parts[-1].line += "  " + line.strip()
        elif line.startswith(INDENT):
            parts[-1].below.append(line[len(INDENT) :])
        else:
            match = HEADING.fullmatch(line)
            assert match, f"this is no line of an explanation: {line!r}"
            parts.append(Part(int(match[1]), match[2] or ""))
    return parts


def is_known(text: str) -> bool:
    return any(pattern.fullmatch(text) for pattern in KNOWN)
