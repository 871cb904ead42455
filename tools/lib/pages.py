"""The pages of docs/ as a package has them: a link to what isn't in the package is its text."""
import os
import posixpath
import re
from pathlib import Path

DOCS = Path(__file__).resolve().parent.parent.parent / "docs"
# Pictures first. Texts may have brackets.
LINK = re.compile(r"(!?)\[((?:[^][]|\[[^][]*\])*)\]\(([^)\s]+)\)")


def places_of(page, path):
    """Returns where a package has a file or a folder of the repository, beside its other pages, and the files for which that holds. A link of
    this page names it."""
    of_repository = posixpath.normpath(posixpath.join("docs", posixpath.dirname(page), path))
    if of_repository.startswith("docs/"):
        place = of_repository.removeprefix("docs/")
        return place, [place]
    # All examples of a package are in one folder.
    if of_repository.startswith("examples/"):
        place, whole = "examples/" + posixpath.basename(of_repository), DOCS.parent / of_repository
        return ("examples", [f"examples/{it.name}" for it in whole.iterdir()]) if whole.is_dir() else (place, [place])
    return None, []


def settled(page, is_there):
    """Returns the text of a page. Its links lead to the places of the package that are there."""

    def settle(link):
        mark, text, target = link.groups()
        path, hash_, anchor = target.partition("#")
        if not path or re.match(r"\w+:", target):
            return link[0]
        place, files = places_of(page, path)
        if place and all(is_there(it) for it in files):
            return f"{mark}[{text}]({posixpath.relpath(place, posixpath.dirname(page) or '.')}{hash_}{anchor})"
        return f"(A picture: {text}.)" if mark else text

    return LINK.sub(settle, (DOCS / page).read_text(encoding="utf-8"))


def put(pages, to):
    """Puts pages, and pictures of theirs, into the folder of a package's documents, in which all else is already. Pages that another call put
    there get links to these, too."""
    there = {*pages, *(str(it.relative_to(DOCS)) for it in DOCS.rglob("*.*") if (to / it.relative_to(DOCS)).is_file())}
    for page in sorted(there):
        path = to / page
        path.parent.mkdir(parents=True, exist_ok=True)
        if page.endswith(".md"):
            path.write_text(settled(page, lambda place: place in there or (to / place).exists()), encoding="utf-8")
        else:
            path.write_bytes((DOCS / page).read_bytes())
        os.chmod(path, 0o644)
