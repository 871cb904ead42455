"""The tokens of a file of Rattle or antt: its text without comments and layout.

It makes no difference how many spaces or line breaks part two words, which comments there are, whether there is a comma before a closing bracket,
and whether an antt file imports names of a module by one `use` or by several, one after another.
Doc comments are comments, too: no `derive` in the crates reads them. Two things that look like layout have a meaning, and count:
- whether there is a space at all: `a - b` are three words, and in antt `a-b` is one name;
- in an antt file, which lines begin an entry of the file, or of a block after `where` or `do`. A line that goes on with an entry makes no difference.
"""
import re

CHARACTER = r"""'(?:\\[^'\n]+|\\'|[^\\'\n])'"""
# A word ends at a space, a bracket, a comma or another mark. What is none of these kinds is a token by itself.
RATTLE = re.compile(
    rf"""(?P<comment>//[^\n]*|/\*.*?\*/)
    |(?P<text>b?r(?P<hashes>\#*)".*?"(?P=hashes)|"(?:\\.|[^"\\])*"|{CHARACTER})
    |(?P<word>(?:[^\s()\[\]{{}}.;,"'/]+|/(?![/*])|(?!{CHARACTER})')+)
    |(?P<mark>\S)""",
    re.S | re.X,
)
ANTT = re.compile(
    r"""(?P<comment>--[^\n]*|\{-.*?-\})
    |(?P<text>"(?:\\.|[^"\\\n])*"|«[^»\n]*»)
    |(?P<word>[^\s(){}.;,@"«»]+)
    |(?P<mark>\S)""",
    re.S | re.X,
)
# After these words antt has a block: each of its entries begins at the column of the first.
BLOCKS = ("where", "do")


def tokens_of(path, text):
    """Returns the tokens of a file with this name and text. A file of another kind has one token."""
    if path.endswith(".rt"):
        return [it[0] for it in without_last_commas(text, found_by(RATTLE, text))]
    if path.endswith(".antt"):
        return with_imports_joined(list(with_entries(text, without_last_commas(text, found_by(ANTT, text)))))
    return [text]


def found_by(form, text):
    return [it for it in form.finditer(text) if it.lastgroup != "comment"]


def without_last_commas(text, found):
    """Leaves out each comma before a closing bracket, but not the one of `(a,)`, a tuple of one value."""
    kept, open_ = [], []
    for it in found:
        if it[0] in ("(", "[", "{"):
            open_.append([it, 0])
        elif it[0] == "," and open_:
            open_[-1][1] += 1
        elif it[0] in (")", "]", "}") and open_:
            first, commas = open_.pop()
            # a bracket without a space before it has the arguments of a call
            is_tuple = it[0] == ")" and commas == 1 and not re.match(r"[\w>)\]!]", text[first.start() - 1 : first.start()])
            if kept[-1][0] == "," and kept[-2] is not first and not is_tuple:
                kept.pop()
        kept.append(it)
    return kept


def with_entries(text, found):
    """Yields the tokens of an antt file, and a line break where an entry begins, once more for each block that ended before it."""
    blocks, is_opened = [0], False
    for it in found:
        line = text.rfind("\n", 0, it.start()) + 1
        column, is_first = it.start() - line, not text[line : it.start()].strip()
        if is_opened and column > blocks[-1]:
            blocks.append(column)
            yield "\n"
        elif is_first and column <= blocks[-1]:
            yield "\n"
            while column < blocks[-1]:
                blocks.pop()
                yield "\n"
        is_opened = it[0] in BLOCKS
        yield it[0]


def with_imports_joined(found):
    """Joins `use M.{a}` and `use M.{b}`, if they follow one another, to `use M.{a, b}`."""
    kept, module = [], None
    for entry in entries_of(found):
        names = entry.index("{") if entry[:1] == ["use"] and "{" in entry else None
        if names is not None and module == entry[:names]:
            # before the last bracket, and before the line break behind it
            end = len(kept) - 1 - kept[::-1].index("}")
            kept[end:end] = [",", *entry[names + 1 : entry.index("}")]]
        else:
            kept += entry
        module = entry[:names] if names is not None else None
    return kept


def entries_of(found):
    """Yields the tokens of each entry, the line break before the next one included."""
    entry = []
    for it in found:
        if entry and entry[-1] == "\n" and it != "\n":
            yield entry
            entry = []
        entry.append(it)
    yield entry
