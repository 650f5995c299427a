# SPDX-License-Identifier: Apache-2.0 OR MIT
"""How a document reads: the words of its sentences, its passives, and the sentences that stand in two places.

Only sentences are counted, of paragraphs and of items of lists: no headings, no tables, no code. Code within a sentence counts as a word,
and a link as what it shows. A passive is a form of *to be* with a participle behind it, with at most two small words between them
(*is not yet proved*). Participles are what ends in *ed*, and the irregular ones of the list below. The count is rough, and the same
for every page: it tells a page that names its actors from one that hides them, and no single sentence.
"""
import re

BE = r"(?:is|are|was|were|be|been|being|isn't|aren't|wasn't|weren't|gets|got)"
BETWEEN = r"(?:(?:not|also|then|only|once|never|always|ever|still|already|yet|so|thus|all|both|each|first|just|\w+ly)\s+){0,2}"
IRREGULAR = """become begun bound bought broken brought built caught chosen counted cut done drawn driven fed felt found forgotten forgiven
    given gone grown handed heard held hidden hit kept known laid led left lent let lost made meant met overwritten paid put read rewritten rung
    run said seen sent set shared shown shut sold spelt split spent spoilt stood struck sworn taken taught thought thrown told understood woken
    won worn written""".split()
ADJECTIVES = {"need", "indeed", "speed", "seed", "feed", "exceed", "red", "bed", "embed", "hundred", "gone"}
PASSIVE = re.compile(rf"\b{BE}\s+{BETWEEN}(\w+ed|{'|'.join(IRREGULAR)})\b", re.I)
# A sentence ends before a space and whatever begins another one.
END = re.compile(r"(?<=[.!?])[)\"*]*\s+(?=[\"(*]*[A-Z`\d\[])")
WORD = re.compile(r"\w")
# A mark in the text that stands for code.
CODE = "x"


def paragraphs(text):
    """The paragraphs and items of a document, each as one line."""
    fenced, held = False, []
    for line in [*text.split("\n"), ""]:
        fenced ^= line.startswith("```")
        code = fenced or line.startswith(("```", "<!--")) or (line.startswith("    ") and not held)
        item = re.match(r"\s*(?:[-*]|\d+\.) +(.*)", line)
        if held and (code or item or not line.strip() or line.startswith(("#", "|"))):
            yield " ".join(held)
            held = []
        if item and not code:
            held = [item[1]]
        elif line.strip() and not code and not line.startswith(("#", "|", "![")):
            held.append(line.strip().removeprefix("> "))
    if held:
        yield " ".join(held)


def plain(paragraph):
    """A paragraph without marks: code is a word, a link what it shows."""
    text = re.sub(r"`[^`]+`", CODE, paragraph)
    text = re.sub(r"\[([^]]*)\]\([^)]*\)", r"\1", text)
    return re.sub(r"[*_>]", "", text)


def sentences(text):
    """The sentences of a document, without marks."""
    for paragraph in paragraphs(text):
        yield from (it.strip() for it in END.split(plain(paragraph)) if WORD.search(it))


def words(sentence):
    return sum(1 for it in sentence.split() if WORD.search(it))


def passives(sentence):
    return sum(1 for it in PASSIVE.findall(sentence) if it.lower() not in ADJECTIVES)


class Style:
    """What is counted of one document, or of some together."""

    def __init__(self, texts):
        found = [it for text in texts for it in sentences(text)]
        self.sentences = len(found)
        self.words = sum(map(words, found))
        self.passives = sum(map(passives, found))
        self.longest = max(found, key=words, default="")

    def mean(self):
        """Words a sentence."""
        return self.words / max(1, self.sentences)

    def share(self):
        """Passives in a thousand words."""
        return 1000 * self.passives / max(1, self.words)


def twice(texts):
    """The sentences of six words or more that stand in two places: each with the documents that have it."""
    places = {}
    for name, text in texts.items():
        for it in sentences(text):
            if words(it) >= 6:
                places.setdefault(it.lower(), []).append(name)
    return {it: names for it, names in places.items() if len(names) > 1}
