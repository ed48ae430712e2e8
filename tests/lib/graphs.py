"""Reads wait-for graphs as the program prints them: for Mermaid, by a small grammar, and for Graphviz."""
import re
from dataclasses import dataclass, field

MERMAID_HEAD = ["flowchart LR", "    classDef cycle stroke:#c00000,stroke-width:3px",
                "    classDef victim fill:#ffd0d0,stroke:#c00000,stroke-width:3px"]  # fmt: skip
# what may stand between the double quotes of a text of Mermaid: no quote, and of a tag a line break alone
TEXT = r'"((?:[^"<>&;]|<br/>)+)"'
NODE = r"([A-Za-z][A-Za-z0-9_]*)"
MERMAID_NODE = re.compile(rf"    {NODE}\[{TEXT}\](?::::(cycle|victim))?")
MERMAID_EDGE = re.compile(rf"    {NODE} -->\|{TEXT}\| {NODE}")
MERMAID_FREE = re.compile(rf"    {NODE}\(\[{TEXT}\]\)")
MERMAID_OWNED = re.compile(rf"    {NODE}\(\[{TEXT}\]\) -\.->\|{TEXT}\| {NODE}")
MERMAID_WORDS = ("end", "graph", "flowchart", "subgraph", "class", "style", "click", "default")

DOT_HEAD = ["digraph waits {", "    rankdir=LR;", "    node [shape=box];"]
NAME = r'"([^"\\]+)"'
DOT_NODE = re.compile(rf'    {NAME} \[label="([^"]+)"(, color="#c00000", penwidth=3)?(, style=filled, fillcolor="#ffd0d0")?\];')
DOT_EDGE = re.compile(rf"    {NAME} -> {NAME} \[label={NAME}\];")
DOT_FREE = re.compile(rf"    {NAME} \[shape=ellipse, label={NAME}\];")
DOT_OWNED = re.compile(rf"    {NAME} \[shape=ellipse\]; {NAME} -> {NAME} \[label={NAME}, style=dashed\];")


@dataclass
class Graph:
    """A node has its key, its mark, and its private and its public label; a resource nobody waits for has its owner, or None."""

    nodes: dict[str, tuple[str, str, str]] = field(default_factory=dict)
    edges: set[tuple[str, int, str]] = field(default_factory=set)
    resources: "dict[int, str | None]" = field(default_factory=dict)

    def add_node(self, key: str, text: list[str], mark: str) -> None:
        name, private, public = text
        assert name == key + {"": "", "cycle": " on a cycle", "victim": " victim"}[mark], name
        assert key not in self.nodes, f"{key} is there twice"
        self.nodes[key] = mark, private.removeprefix("private "), public.removeprefix("public ")

    def add_edge(self, waiter: str, label: str, holder: str) -> None:
        edge = waiter, number(label), holder
        assert edge not in self.edges, f"{edge} is there twice"
        self.edges.add(edge)


def number(label: str) -> int:
    match = re.fullmatch(r"resource (\d+)(?: free)?", label)
    assert match, label
    return int(match[1])


def key_of(node: str) -> str:
    match = re.fullmatch(r"t(\d+)_(\d+)", node)
    assert match and node not in MERMAID_WORDS, node
    return f"{match[1]}.{match[2]}"


def of_mermaid(printed: str) -> Graph:
    """The graph of a text of Mermaid, each line of which is in the grammar."""
    lines = printed.split("\n")
    assert lines.pop() == "" and lines[:3] == MERMAID_HEAD, lines[:3]
    graph = Graph()
    for line in lines[3:]:
        if match := MERMAID_NODE.fullmatch(line):
            graph.add_node(key_of(match[1]), match[2].split("<br/>"), match[3] or "")
        elif match := MERMAID_EDGE.fullmatch(line):
            graph.add_edge(key_of(match[1]), match[2], key_of(match[3]))
        elif match := MERMAID_FREE.fullmatch(line):
            graph.resources[number(match[2])] = None
        elif match := MERMAID_OWNED.fullmatch(line):
            assert match[3] == "owned by"
            graph.resources[number(match[2])] = key_of(match[4])
        else:
            raise AssertionError(f"this is no line of Mermaid: {line!r}")
    return graph


def of_dot(printed: str) -> Graph:
    """The graph of a text of Graphviz."""
    lines = printed.split("\n")
    assert lines.pop() == "" and lines.pop() == "}" and lines[:3] == DOT_HEAD, lines[:3]
    graph = Graph()
    for line in lines[3:]:
        if match := DOT_NODE.fullmatch(line):
            mark = "victim" if match[4] else "cycle" if match[3] else ""
            graph.add_node(match[1], match[2].split("\\n"), mark)
        elif match := DOT_EDGE.fullmatch(line):
            graph.add_edge(match[1], match[3], match[2])
        elif match := DOT_FREE.fullmatch(line):
            graph.resources[number(match[1])] = None
        elif match := DOT_OWNED.fullmatch(line):
            graph.resources[number(match[1])] = match[3]
        else:
            raise AssertionError(f"this is no line of such a graph: {line!r}")
    return graph
