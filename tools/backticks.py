"""The names in backticks of the documents: a path must lead somewhere, and what looks like a name of the code must be a word of some source."""
import re
import subprocess

FENCE = re.compile(r"^```.*?^```", re.M | re.S)
SPAN = re.compile(r"(?<!`)`([^`\n]+)`(?!`)")
PATH = re.compile(r"(?:crates|capi|tests|tools|docs|bench|debian|examples|build)/[\w./+-]*\w/?")
NAME = re.compile(r"(?:\w+(?:::|\.))*[a-zA-Z]\w*(?:\(\))?")
# Bytes of names as they are, and all others as blanks.
BLANKS = bytes(it if chr(it).isalnum() and it < 128 or it == ord("_") else ord(" ") for it in range(256))
# What stands for any name, and what Rust and clap have and nothing here calls.
ANY = re.compile(r"\b(?:NAME|CRATE|FUNCTION)\b|of_CRATE")
OTHERS = {"try_fold", "is_sorted_by", "binary_search_by_key", "fields_of"}
# It names what is gone, too.
HISTORY = "CHANGELOG.md"


def looks_like_one(word):
    """Whether no plain word of English is written so."""
    return "_" in word or re.match(r"[A-Z][a-z]+[A-Z]", word)


def words_of_sources(top):
    """Each word of the files that git has, and of their names, without the documents."""
    listed = subprocess.run(["git", "ls-files"], cwd=top, stdout=subprocess.PIPE, text=True, check=True).stdout.split("\n")
    found = set()
    for name in listed:
        if name and not name.endswith(".md"):
            file = top / name
            text = name.encode() + b" " + (file.read_bytes() if file.is_file() else b"")
            found.update(text.translate(BLANKS).split())
    return {word.decode() for word in found}


def lost(top, documents):
    """What is said of each name that is nowhere: where it stands, and what it is."""
    words = words_of_sources(top) | OTHERS
    for document in documents:
        if document == HISTORY:
            continue
        text = FENCE.sub(lambda it: "\n" * it[0].count("\n"), (top / document).read_text(encoding="utf-8"))
        for number, line in enumerate(text.split("\n"), 1):
            for span in SPAN.findall(line):
                last = re.split(r"::|\.", span.removesuffix("()"))[-1]
                if ANY.search(span):
                    continue
                if PATH.fullmatch(span) and not (top / span).exists():
                    yield f"{document}:{number}: there is no {span}"
                elif NAME.fullmatch(span) and looks_like_one(last) and last not in words:
                    yield f"{document}:{number}: no source has the name {span}"
