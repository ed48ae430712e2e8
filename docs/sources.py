"""What the pages say of the sources is read from them: the functions of crates/, with their contracts."""
import pathlib
import re

TOP = pathlib.Path(__file__).resolve().parents[1]
PAGES = sorted([*TOP.glob("*.md"), *TOP.glob("docs/*.md"), *TOP.glob("*/README.md"), *TOP.glob("clients/*/README.md"), *TOP.glob("crates/*/*.md")])
HEAD = re.compile(r"^(?:pub )?(impl|trait)\b", re.M)
FUNCTION = re.compile(r"^ *(?:(pub )|pub\(\w+\) )?(?:extern \"C\" )?fn (\w+)", re.M)
CLAUSE = re.compile(r"\s*(requires|ensures\*?)\s*(\w+)?\s*\{")


def without_comments(text):
    return re.sub(r"^\s*//.*\n", "", text, flags=re.M)


def closing(text, at, pair="{}"):
    """The place after the bracket that closes the one at this place."""
    depth = 0
    for place in range(at, len(text)):
        depth += (text[place] == pair[0]) - (text[place] == pair[1])
        if depth == 0:
            return place + 1
    raise ValueError(f"a bracket stays open: {text[at:at + 60]}")


def signature(text):
    """A signature in one line."""
    text = re.sub(r"\s+", " ", text).strip().rstrip(",")
    return re.sub(r",? ([)>\]])", r"\1", re.sub(r"([(<\[]) ", r"\1", text))


def said(clause):
    """A clause as pages show it."""
    clause = re.sub(r"\s+", " ", clause).strip()
    return re.sub(r"\b(\w+)\.new\b", r"\1'", re.sub(r"\b(\w+)\.(?:old|now|entry)\b", r"\1", clause))


def owners(text):
    """Each impl and trait: where it begins and ends, its type, and whether its functions are public by it."""
    for match in HEAD.finditer(text):
        head = text[match.start() : text.index("{", match.start())]
        bare = head
        while "<" in bare:
            bare = re.sub(r"<[^<>]*>", "", bare.replace("->", ""))
        name = re.search(r"(?:\bfor\s+|impl\s+|trait\s+)(\w+)\s*(?::.*)?$", bare.split(" where")[0].strip(), re.S)
        yield match.start(), closing(text, text.index("{", match.start())), name[1] if name else "", match[1] == "trait"


def functions(path):
    """Each function of a source: its name with its type, whether it is public, and its contract as pages show it."""
    text = without_comments(path.read_text())
    places = list(owners(text))
    for match in FUNCTION.finditer(text):
        of, by_trait = next(((name, trait) for begin, end, name, trait in places if begin < match.start() < end), ("", False))
        name = f"{of}::{match[2]}" if of else match[2]
        clauses, at = [], signature_end(text, match.end())
        head = signature(text[match.end() : at])
        while found := CLAUSE.match(text, at):
            at = closing(text, found.end() - 1)
            label = f" {found[2]}" if found[2] else ""
            clauses.append(f"  {found[1].rstrip('*')}{label}: {said(text[found.end() : at - 1])}")
        yield name, bool(match[1]) or by_trait, "\n".join([f"fn {name}{head}", *clauses])


def signature_end(text, at):
    """Where a signature ends: at its first clause, at its body, or at a semicolon."""
    depth = 0
    while True:
        if depth == 0 and (text[at] in "{;" or CLAUSE.match(text, at) and text[at].isspace()):
            return at
        depth += text[at] in "(<[" and text[at - 1 : at + 1] != "->"
        depth -= text[at] in ")>]" and text[at - 1 : at + 1] != "->"
        at += 1
