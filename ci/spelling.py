"""Checks the spelling of the pages with hunspell's British dictionary and the project's own words (ci/words.txt).

Code, links and HTML comments are left out, and so are words with a digit, an underscore or a capital inside, which are
names of code.
"""
import glob
import re
import subprocess

from packages import install

DICTIONARY = "en_GB"
DICTIONARY_FILES = "/usr/share/hunspell/en_GB.*"
PACKAGES = ("hunspell", "hunspell-en-gb")
WORDS = "ci/words.txt"
LEFT_OUT = (
    re.compile(r"^```.*?^```", re.DOTALL | re.MULTILINE),
    re.compile(r"<!--.*?-->", re.DOTALL),
    re.compile(r"`[^`]*`"),
    re.compile(r"\]\([^)]*\)"),
    re.compile(r"^    .*$", re.MULTILINE),
    re.compile(r"https?://\S+"),
    re.compile(r"\S*[_/\\]\S*"),
    re.compile(r"(?<=\w)['’]s\b"),
)
NAME = re.compile(r"\w+[A-Z0-9]\w*|\w*\d\w*")


def prose_of(page):
    """Returns the words of a page that are prose, with its lines as they are."""
    for each in LEFT_OUT:
        page = each.sub(lambda found: "\n" * found[0].count("\n") or " ", page)
    return page


def unknown_words(texts, own):
    """Returns the words of some texts that neither dictionary has, each once."""
    asked = ["hunspell", "-d", DICTIONARY, "-i", "utf-8", "-l"]
    ran = subprocess.run(
        asked, input="\n".join(texts), stdout=subprocess.PIPE, check=True, text=True
    )
    return {it for it in ran.stdout.split() if not NAME.fullmatch(it) and it.lower() not in own}


def misspelled(top, pages):
    """Yields a message for each word of the pages (texts by path) that no dictionary has."""
    if not glob.glob(DICTIONARY_FILES):
        install(PACKAGES)
    own = {word.lower() for word in (top / WORDS).read_text().split()}
    prose = {path: prose_of(page) for path, page in pages.items()}
    unknown = unknown_words(prose.values(), own)
    for path, text in prose.items():
        for at, line in enumerate(text.splitlines(), 1):
            for word in sorted(unknown & set(re.findall(r"[\w'’]+", line))):
                yield f"{path}:{at}: '{word}' is no word (add it to {WORDS} if it is right)"
    if "unwritted" not in unknown_words(["unwritted"], own):
        yield "ci/spelling.py: a misspelled word is not reported"
