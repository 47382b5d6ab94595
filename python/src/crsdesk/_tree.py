"""Canonical texts, and those that PROJ writes, as trees of their nodes. They have one kind of delimiters."""

from __future__ import annotations

import re
from dataclasses import dataclass, field
from decimal import Decimal
from typing import Iterator, List, Optional, Union

TOKEN = re.compile(r'\s*("(?:[^"]|"")*"|[\[\],]|[^\s\[\],"]+)')


@dataclass
class Node:
    """A keyword, and what its brackets have: values as they are written, and nodes."""

    keyword: str
    items: List[Union[str, "Node"]] = field(default_factory=list)

    @property
    def values(self) -> List[str]:
        """Its own values; a quoted text without its quotes."""
        return [unquoted(it) for it in self.items if isinstance(it, str)]

    @property
    def nodes(self) -> List[Node]:
        return [it for it in self.items if isinstance(it, Node)]

    @property
    def name(self) -> str:
        """Its first value; nothing if it has none."""
        return next(iter(self.values), "")

    def child(self, keyword: str) -> Optional[Node]:
        """Its first node of a keyword."""
        return next((it for it in self.nodes if it.keyword == keyword), None)

    def all(self) -> Iterator[Node]:
        """It, and all nodes in it."""
        yield self
        for node in self.nodes:
            yield from node.all()


def unquoted(value: str) -> str:
    return value[1:-1].replace('""', '"') if value.startswith('"') else value


def tree_of(text: str) -> Node:
    """The tree of a text. ValueError if it is none."""
    nodes = nodes_in(text)
    if len(nodes) != 1:
        raise ValueError("no text of one node")
    return nodes[0]


def nodes_in(text: str) -> List[Node]:
    """The nodes of a text that has some, with commas between them; the values among them aren't answered."""
    top = Node("")
    waiting = [top]
    for token in TOKEN.findall(text):
        if token == "[":
            keyword = waiting[-1].items.pop()
            if isinstance(keyword, Node):
                raise ValueError("a bracket without a keyword")
            waiting.append(Node(keyword.upper()))
        elif token == "]":
            done = waiting.pop()
            if not waiting:
                raise ValueError("a bracket too many")
            waiting[-1].items.append(done)
        elif token != ",":
            waiting[-1].items.append(token)
    if len(waiting) != 1:
        raise ValueError("a bracket is open")
    return top.nodes


def text_of_node(node: Node) -> str:
    return f"{node.keyword}[{','.join(it if isinstance(it, str) else text_of_node(it) for it in node.items)}]"


def number_shown(written: str) -> str:
    """A number in one spelling of its value."""
    value = Decimal(written).normalize()
    return format(value, "f") if value else "0"
