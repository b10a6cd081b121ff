#!/usr/bin/env python3
"""tools/sections.py [--check]: the sections of the Standards that comments name, and whether docs/algorithms.md has them.

A comment of a source (crates/*/src, crates/*/specs) names a section as `HTML Standard, section "Upgrades"`, and what is
meant in it behind that: `section "Upgrades", "upgrade an element"`. Where it names more than one section it says
`sections`. What an algorithm of Infra or of the URL Standard is called may stand without a section, as
`Infra Standard, "strip newlines"`; a section of an RFC has a number. Where no Standard is named, it is the one that has
a section of this title.

The table of docs/algorithms.md under "The sections of the Standards" has a row for each of these titles. Each is written
out, with the title, and the lines that name it first. A title without a row, a row that neither a comment nor a document
names, and an address that stands in two rows or anywhere else in the documents are told, and then the status is 1. With
--check only these are written.
"""
import argparse
import collections
import pathlib
import re
import sys

TOP = pathlib.Path(__file__).resolve().parent.parent
PAGE = TOP / "docs" / "algorithms.md"
HEADING = "## The sections of the Standards"
STANDARD = r"(?:HTML|DOM|URL|Infra|Encoding) Standard|Web IDL|Infra|RFC \d+"
TITLE = r'"[^"]*"|`[^`]*`'
TITLES = rf"(?:{TITLE})(?:(?:, and |, | and )(?:{TITLE}))*"
NAMED = re.compile(
    rf"(?:(?P<standard>{STANDARD}), )?(?P<word>sections?) (?P<titles>{TITLES}|\d[\d.]*\d|\d)"
    rf"|(?P<alone>{STANDARD}), (?P<algorithm>{TITLE})"
    rf"|(?P<whole>RFC \d+)(?!, section)")
ADDRESS = re.compile(
    r"https://(?:(?:html|dom|infra|url|webidl|encoding)\.spec\.whatwg\.org|www\.rfc-editor\.org)/[^\s>|]*")


def comments(source):
    """The comments of a source: the number of the first line and the text, with its lines joined."""
    sign = re.compile(r"//[/!]?" if source.suffix == ".rt" else r"--")
    first, parts = 0, []
    for number, line in enumerate(source.read_text(encoding="utf-8").split("\n") + [""], 1):
        begun = sign.match(line.strip())
        if begun:
            first = first or number
            parts.append(line.strip()[begun.end():].strip())
            continue
        if parts:
            yield first, " ".join(parts)
            first, parts = 0, []
        behind = re.search(r"\s(?://|--)\s(.*)$", line)
        if behind:
            yield number, behind[1]


def rows():
    """The rows of the table: a title as it stands in its cell, and its address."""
    text = PAGE.read_text(encoding="utf-8")
    if HEADING not in text:
        sys.exit(f"sections: docs/algorithms.md has no heading {HEADING}")
    part = re.split(r"\n## ", text[text.index(HEADING) + 3:])[0]
    found = re.findall(r"^\| ((?:HTML|DOM|URL|Infra|Encoding|Web|RFC) .*?) \| (.*?) \| .* \|$", part, re.M)
    return [(title, address) for title, address in found]


class Table:
    """What the table has."""

    def __init__(self, found):
        self.titles = {title for title, _ in found}
        self.standards = collections.defaultdict(set)
        for title in self.titles:
            parts = re.match(rf"({STANDARD}), ({TITLE})", title)
            if parts:
                self.standards[parts[2]].add(parts[1])

    def standard_of(self, said, section):
        """The Standard that has the section: the one that is said, or the only one with a section of this title."""
        if said:
            return "Infra Standard" if said == "Infra" else said
        there = self.standards[section]
        return next(iter(there)) if len(there) == 1 else "?"

    def named_by(self, match):
        """The titles of the table that a part of a comment names."""
        if match["whole"]:
            return [match["whole"]]
        if match["alone"]:
            return [f"{self.standard_of(match['alone'], '')}, {match['algorithm']}"]
        if match["titles"][0].isdigit():
            return [f"{match['standard']}, section {match['titles']}"]
        titles = re.findall(TITLE, match["titles"])
        standard = self.standard_of(match["standard"], titles[0])
        named, section = [], titles[0]
        for title in titles:
            whole = f"{standard}, {title}"
            if title == titles[0] or (match["word"] == "sections" and whole in self.titles):
                section = title
                named.append(whole)
            else:
                named.append(f"{standard}, {section}, {title}")
        return named


def named_in_comments(table):
    """Each title that comments name, and where."""
    named = collections.defaultdict(list)
    sources = sorted(TOP.glob("crates/*/src/**/*.rt")) + sorted(TOP.glob("crates/*/specs/**/*.antt"))
    for source in sources:
        for number, text in comments(source):
            for match in NAMED.finditer(text):
                for title in table.named_by(match):
                    named[title].append(f"{source.relative_to(TOP)}:{number}")
    return named


def faults(found, named):
    """What is not as it should be."""
    titles = {title for title, _ in found}
    for title in sorted(set(named) - titles):
        yield f"{named[title][0]}: the table has no row for: {title}"
    documents = {page: page.read_text(encoding="utf-8") for page in sorted(TOP.glob("docs/*.md"))}
    others = "".join(text for page, text in documents.items() if page != PAGE)
    for title in sorted(titles - set(named)):
        if re.findall(TITLE, title)[-1] not in others:
            yield f"docs/algorithms.md: nothing names: {title}"
    if len(titles) < len(found):
        yield "docs/algorithms.md: a title stands in two rows"
    places = collections.Counter(
        address.rstrip(".,)") for text in documents.values() for address in ADDRESS.findall(text))
    for address in sorted(address for address, count in places.items() if count > 1):
        yield f"docs: an address stands {places[address]} times: {address}"


def main():
    parser = argparse.ArgumentParser(description=__doc__.split("\n", 1)[0])
    parser.add_argument("--check", action="store_true")
    words = parser.parse_args()
    found = rows()
    named = named_in_comments(Table(found))
    if not words.check:
        for title in sorted(named):
            print(f"{len(named[title]):4} {title}   {', '.join(named[title][:2])}")
    failed = list(faults(found, named))
    for fault in failed:
        print(f"sections: {fault}", file=sys.stderr)
    print(f"sections: {len(named)} titles are named, {len(found)} have an address, {len(failed)} faults")
    return 1 if failed else 0


if __name__ == "__main__":
    sys.exit(main())
