#!/usr/bin/env python3
"""Checks the documents: their lengths, their links and their words; the words of comments and messages; and the completions.

    tests/documents.py [PROGRAM]

- Length: a document of BUDGETS exceeds its budget by at most a quarter. Words are counted as `wc -w` counts them.
- Links: each relative link of a document leads to a file or folder of the repository, and its anchor to a heading there. In pages of the
  manual, .Sx leads to a section, .Xr to an existing page, a section named before .Xr to one of that page, and a path to a file.
- Words: none of WORDS and OLD_NAMES is in a document of BUDGETS. The search leaves out code, which quotes the program, and lines of macros in
  pages. None of them is in a comment line of a crate either, nor in a quoted text of its code that has a space, as messages have; but for
  `cqf: plant: `, the beginning of some faults.
- Completions: each file is what build/completions.py makes from the program's table of commands.

PROGRAM isn't used; ./test gives it to each of its parts. The script prints each failure, and a last line 'documents: N passed, M failed'. Each
length, link, document of BUDGETS, crate and file of completions counts once. The exit status is 1 if any failed.
"""
import re
import sys
from pathlib import Path

sys.path.insert(0, str(Path(__file__).resolve().parent.parent))
from common import TOP
from common.counting import Counts
from common.running import call
from common.words import Reader

# the word budget of each document that has one
BUDGETS = {
    "README.md": 1500,
    "CONTRIBUTING.md": 1000,
    "docs/GUIDE.md": 3500,
    "docs/COOKBOOK.md": 3500,
    "docs/CLAIMS.md": 1800,
    "docs/GLOSSARY.md": 600,
    "docs/cqf.1": 3500,
    "docs/cqf-formats.5": 3500,
    "docs/cqf-diagnostics.7": 2000,
    "docs/ARCHITECTURE.md": 2200,
    "docs/DECISIONS.md": 3000,
    "docs/PROOFS.md": 3200,
    "docs/BENCHMARKS.md": 1500,
}
# patterns of words that a plain sentence doesn't need. The pattern of `of that` matches only without a noun after it
OF_THAT = r"of that(?=[,.;:)]| (?:are|has|is|it|no|of|the|they|which)\b)"
WORDS = ["as it comes to", "behind", "comes to", "is had", OF_THAT, "of which", "so many", "stands", "that which", "the like", "told", "whatever"]
# patterns of old names. They are left only in names of code and examples and in fault lines; the glossary explains them
OLD_NAMES = ["guard times?", "plants?", "sketch(?:es)?"]
GLOSSARY = "docs/GLOSSARY.md"
COMPLETIONS = ["completions/cqf.bash", "completions/_cqf", "completions/cqf.fish"]
# the pages of the manual, by the arguments of .Xr
PAGES = {"cqf 1": "docs/cqf.1", "cqf-formats 5": "docs/cqf-formats.5", "cqf-diagnostics 7": "docs/cqf-diagnostics.7"}
FENCE = re.compile(r"^(```+).*?^\1[ ]*$", re.MULTILINE | re.DOTALL)
CODE = re.compile(r"(`+)(?!`).*?(?<!`)\1(?!`)", re.DOTALL)
LINK = re.compile(r"!?\[[^\]]*\]\(([^()\s]+)\)")
DISPLAY = re.compile(r"^\.Bd .*?^\.Ed$", re.MULTILINE | re.DOTALL)
MACRO = re.compile(r"^\..*$", re.MULTILINE)
SECTION = re.compile(r"^\.S[hs] (.*)$", re.MULTILINE)
# a comment of code, a quotation or placeholder in a text, and a text in quotes
COMMENT = re.compile(r"^\s*(?://[/!]?|--)(.*)$")
QUOTED = re.compile(r"`[^`]*`|\{\w*\}")
TEXT = re.compile(r"""'\\?"'|\br(#*)"(?P<raw>.*?)"\1|"(?P<plain>(?:[^"\\]|\\.)*)\"""", re.DOTALL)
# a section of this page, a page with the sections named before it, and a path of the repository
REFERENCE = re.compile(
    r"^\.(?:It )?Sx (?P<section>.*?)(?: [.,;:)])?$"
    r"|(?P<sections>(?:[A-Z]{4,} and )?[A-Z]{4,} (?:of|in)\n)?^\.Xr (?P<page>cqf\S* \d)"
    r"|^\.Pa (?P<path>(?:bench|docs|examples|tests)/\S*|[A-Z]+\.md)",
    re.MULTILINE,
)


def without(pattern, text, blank=" "):
    """Returns a text with all matches of a pattern blanked, except for their line ends."""
    return pattern.sub(lambda found: re.sub(r"[^\n]", blank, found[0]), text)


def line_of(text, at):
    return text.count("\n", 0, at) + 1


def anchors_of(text):
    """Returns the anchors of a document's headings: lower case, no punctuation, a hyphen for each blank, and a number if the anchor is taken."""
    anchors = {}
    for heading in re.findall(r"^#+ +(.*?) *$", without(FENCE, text), re.MULTILINE):
        plain = LINK.sub(lambda found: found[0][found[0].index("[") + 1 : found[0].index("]")], heading)
        anchor = re.sub(r"[^\w\- ]", "", plain.lower()).replace(" ", "-")
        count = anchors.get(anchor, -1) + 1
        anchors[anchor] = count
        if count:
            anchors[f"{anchor}-{count}"] = 0
    return anchors


def length_fault(name, text):
    """Returns the fault of a document's length, or None."""
    count = len(text.split())
    return f"{name}: {count} words, a budget of {BUDGETS[name]}" if count * 4 > BUDGETS[name] * 5 else None


def link_faults(name, text):
    """Yields the fault of each relative link, or None."""
    plain = without(CODE, without(FENCE, text))
    for found in LINK.finditer(plain):
        if re.match(r"[a-z]+:", found[1]):
            continue
        path, _, anchor = found[1].partition("#")
        target = (TOP / name).parent / path if path else TOP / name
        fault = None
        if not target.exists():
            fault = "no such file"
        elif anchor and anchor not in anchors_of(target.read_text()):
            fault = "no such heading"
        yield fault and f"{name}, line {line_of(plain, found.start())}: {found[1]}: {fault}"


def reference_fault(text, found):
    """Returns the fault of a page's reference, or None."""
    if found["section"]:
        return None if found["section"] in SECTION.findall(text) else "no such section"
    if found["path"]:
        return None if (TOP / found["path"]).exists() else "no such file"
    if found["page"] not in PAGES:
        return "no such page"
    theirs = SECTION.findall((TOP / PAGES[found["page"]]).read_text())
    missing = [section for section in re.findall("[A-Z]{4,}", found["sections"] or "") if section not in theirs]
    return f"no section {', '.join(missing)}" if missing else None


def reference_faults(name, text):
    """Yields the fault of each reference of a page, or None."""
    for found in REFERENCE.finditer(text):
        fault = reference_fault(text, found)
        yield fault and f"{name}, line {line_of(text, found.end())}: {found[0]!r}: {fault}"


def prose_of(name, text):
    """Returns a document without code, addresses and macros."""
    if name in PAGES.values():
        # Most macros hold words of the sentence, so the words around a macro aren't next to each other.
        return without(MACRO, without(DISPLAY, text), ".")
    return without(CODE, without(FENCE, LINK.sub(lambda found: found[0].replace(found[1], " " * len(found[1])), text)))


def pattern_of(words):
    """Returns a pattern that matches any of these words."""
    return re.compile(r"\b(?:" + "|".join(words).replace(" ", r"\s+") + r")(?!\w)", re.IGNORECASE)


def word_fault(name, text):
    """Returns the words of a document to avoid, each with its line, or None."""
    plain = prose_of(name, text)
    pattern = pattern_of(WORDS if name == GLOSSARY else WORDS + OLD_NAMES)
    avoided = [f"line {line_of(plain, found.start())}: {found[0]!r}" for found in pattern.finditer(plain)]
    return f"{name}: words to avoid: {', '.join(avoided)}" if avoided else None


def texts_of(path):
    """Yields the comments and messages of a source file, each with the number of its line. Examples in comments count as code."""
    code, is_code = [], False
    for number, line in enumerate(path.read_text().splitlines(), 1):
        comment = COMMENT.match(line)
        code.append("" if comment else line)
        if comment is None:
            continue
        if comment[1].strip().startswith("```"):
            is_code = not is_code
        elif not is_code:
            yield number, QUOTED.sub("it", comment[1])
    text = "\n".join(code)
    for found in TEXT.finditer(text):
        message = found["raw"] or found["plain"] or ""
        if " " in message:
            yield line_of(text, found.start()), QUOTED.sub("it", message)


def crate_fault(crate):
    """Returns the words to avoid in a crate's comments and messages, each with its place, or None."""
    pattern = pattern_of(WORDS + OLD_NAMES)
    avoided = [
        f"{path.relative_to(TOP)}:{number}: {found[0]!r}"
        for path in sorted([*crate.rglob("*.rt"), *crate.rglob("*.antt")])
        for number, text in texts_of(path)
        for found in pattern.finditer(text.replace("cqf: plant: ", ""))
    ]
    return f"{crate.name}: words to avoid: {', '.join(avoided)}" if avoided else None


def completion_faults():
    """Yields the fault of each file of completions, or None. Yields a single fault if the table of commands can't be read."""
    ran = call([TOP / "build/completions.py", "--check"])
    said = ran.stdout + ran.stderr
    faults_of = {line.partition(":")[0]: line for line in said.splitlines()}
    if ran.returncode != 0 and not faults_of.keys() & set(COMPLETIONS):
        yield f"build/completions.py --check: status {ran.returncode}: {said.strip()}"
    else:
        yield from map(faults_of.get, COMPLETIONS)


def faults():
    """Yields the fault, or None, of each length, link, document of BUDGETS, crate and file of completions."""
    names = sorted(str(path.relative_to(TOP)) for folder in ("", "docs", "examples") for path in (TOP / folder).glob("*.md"))
    for name in names:
        text = (TOP / name).read_text()
        if name in BUDGETS:
            yield length_fault(name, text)
            yield word_fault(name, text)
        yield from link_faults(name, text)
    for name in PAGES.values():
        text = (TOP / name).read_text()
        yield length_fault(name, text)
        yield word_fault(name, text)
        yield from reference_faults(name, text)
    yield from map(crate_fault, sorted((TOP / "crates").iterdir()))
    yield from completion_faults()


def main():
    reader = Reader(__doc__)
    reader.add_program("cqf")
    reader.parse_args()
    counts = Counts("documents")
    for fault in faults():
        counts.tell(fault)
    return counts.end()


sys.exit(main())
