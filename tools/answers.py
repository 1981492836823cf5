"""Files of answers: each declaration of a function's Answers.antt proves the goal of its name."""
import re


def declarations(text):
    """The declarations of a laid out proof file, by their names, each with its signature and its clauses."""
    found = {}
    for match in re.finditer(r"^(?:(?:abbrev|pub) )*(\S+) .*\n(?:[ \t].*\n|\n)*", text + "\n", re.MULTILINE):
        if match[1] not in ("use", "--", "mutual"):
            found.setdefault(match[1], []).append(match[0])
    return found


def without(text, names):
    """The proof file without these declarations; without all of them where one is not found, or no name is told."""
    found = declarations(text)
    if not all(it in found for it in names):
        return "", set(found)
    for part in (part for it in names for part in found[it]):
        text = (text + "\n").replace(part, "", 1)
    return text, set(names)


def is_same_but_for_number(one, other):
    """Of goals that are alike a check tells all but the first by a number, which an edit may change."""
    return re.sub(r"-\d+\b", "", one) == re.sub(r"-\d+\b", "", other)
