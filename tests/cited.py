#!/usr/bin/env python3
"""Looks for what the documents name: the targets of links, files, sections of other documents, and in PROVED.md each call, clause and definition.

Usage: cited.py. A clause counts if a call of its row, or a method of the type that the row names, has one of that name; a definition counts
if a specification or a proof has the word. The last line counts what was looked for, and the status is 1 if something wasn't found.
"""
import collections
import pathlib
import re
import sys

TOP = pathlib.Path(__file__).resolve().parent.parent
ENDINGS = "rt|antt|py|sh|md|txt|h|c|mjs|ts|wasm|json|csv|stream|svg|so|a|toml|rs|1"
FILE = re.compile(rf"(?:(?:bash|python3) )?([\w./-]+\.(?:{ENDINGS}))(?: .*)?")
PLACEHOLDER = "VERB"        # CHANGING.md writes the name of a verb so
FUNCTION = re.compile(r'^\s*(?:pub(?:\([^)]*\))? )?(?:const |unsafe |extern "C" )*fn (\w+)', re.M)
TYPE = re.compile(r"\b(?:struct|enum|trait) (\w+)|\bimpl(?:<[^>]*>)? (?:\w+(?:<[^>]*>)? for )?(\w+)")
CLAUSE = re.compile(r"\b(?:ensures|requires)\s+(\w+)\s*\{")
NAME = re.compile(r"`([^`\n]+)`")


def headings(document):
    lines = document.read_text().splitlines() if document.exists() else []
    return [line.lstrip("#").strip().replace("`", "") for line in lines if re.match("#+ ", line)]


def anchor(heading):
    return re.sub(r"[^\w\- ]", "", heading.lower()).replace(" ", "-")


def lost_links(document):
    """The links of the document that lead nowhere, and how many it has."""
    lost, links = [], re.findall(r"\]\(([^)\s]+)\)", document.read_text())
    for link in links:
        path, _, part = link.partition("#")
        target = document.parent / path if path else document
        if "://" not in link and (not target.exists() or part and part not in map(anchor, headings(target))):
            lost.append(f"link {link}")
    return lost, len(links)


def lost_files(document, files):
    """The files that the document names in backticks and that aren't in the repository, and how many it names."""
    prose = re.sub(r"```.*?```", "", document.read_text(), flags=re.S)
    named = [found.group(1) for found in map(FILE.fullmatch, NAME.findall(prose)) if found and PLACEHOLDER not in found.group(1)]
    return [f"file {name}" for name in named if not any(f"/{file}".endswith(f"/{name}") for file in files)], len(named)


def lost_sections(document):
    """The sections of documents that the document names after a file's name and that aren't there, and how many it names."""
    named = re.findall(r'\b([A-Z]+\.md)(?:\]\(([^)]*)\))?,\s+"([^"]+)"', document.read_text())
    lost = []
    for file, link, section in named:
        titles = [title for folder in (document.parent, TOP / "docs", TOP) for title in headings(folder / (link or file))]
        if " ".join(section.replace("`", "").split()) not in titles:
            lost.append(f"section {file}, {section}")
    return lost, len(named)


def clauses_of_sources():
    """The names of the clauses of each function and, for the methods of a type, of each type."""
    clauses = collections.defaultdict(set)
    for source in TOP.glob("crates/*/src/**/*.rt"):
        text = source.read_text()
        starts = list(FUNCTION.finditer(text))
        ends = [start.start() for start in starts[1:]] + [len(text)]
        for start, end in zip(starts, ends):
            clauses[start.group(1)] |= set(CLAUSE.findall(text[start.end():end]))
        for one, other in TYPE.findall(text):
            clauses[one or other] |= set(CLAUSE.findall(text))
    return dict(clauses)


def lost_promises():
    """What the tables of PROVED.md name and no source has, and how many calls, clauses and definitions they name."""
    clauses, crates = clauses_of_sources(), {folder.name for folder in (TOP / "crates").iterdir()}
    words = set(re.findall(r"\w+", " ".join(file.read_text() for file in TOP.glob("crates/**/*.antt"))))
    lost, calls, counts = [], [], [0, 0, 0]
    for line in (TOP / "docs/PROVED.md").read_text().splitlines():
        cells = re.split(r"\s*\|\s*", line)[1:-1]
        if len(cells) != 4 or cells[0] in ("promise", "---"):
            continue
        laws = " ".join(re.findall(r"\blaws? [^:]*", cells[2]))
        if cells[1] != "the same":
            calls = [part for name in NAME.findall(cells[1] + laws) for part in name.split("::") if part not in crates | {"laws"}]
        named = [name for name in NAME.findall(cells[2]) if name not in NAME.findall(laws)]
        known = set().union(*(clauses.get(call, set()) for call in calls))
        lost += [f"call {call}" for call in calls if call not in clauses]
        lost += [f"clause {name} of {', '.join(calls)}" for name in named if name not in known]
        lost += [f"definition {name}" for name in NAME.findall(cells[3]) if name not in words]
        counts = [count + len(more) for count, more in zip(counts, (calls, named, NAME.findall(cells[3])))]
    return lost, counts


def main():
    files = [file.relative_to(TOP).as_posix() for file in TOP.rglob("*") if file.is_file()]
    documents = sorted(TOP / file for file in files if file.endswith(".md") and not re.search(r"(^|/)(out|target|node_modules)/", file))
    lost, totals = [], [0, 0, 0]
    for document in documents:
        for place, (missing, count) in enumerate((lost_links(document), lost_files(document, files), lost_sections(document))):
            lost += [f"{document.relative_to(TOP)}: {what}" for what in missing]
            totals[place] += count
    promised, counts = lost_promises()
    lost += [f"docs/PROVED.md: {what}" for what in promised]
    print(*lost, sep="\n", end="\n" if lost else "")
    print("{} links, {} files, {} sections; in PROVED.md {} calls, {} clauses, {} definitions: {} not found".format(*totals, *counts, len(lost)))
    return 1 if lost or not all(totals + counts) else 0


if __name__ == "__main__":
    sys.exit(main())
