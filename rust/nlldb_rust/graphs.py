"""Paths and groups of a graph of regions. Nothing here is proved."""
from __future__ import annotations

from collections import defaultdict
from typing import Iterable, Mapping

Edge = tuple[int, int]


def successors_of(edges: Iterable[Edge]) -> dict[int, set[int]]:
    """Returns where the edges lead from each node."""
    successors: dict[int, set[int]] = defaultdict(set)
    for start, end in edges:
        successors[start].add(end)
    return successors


def leads(successors: Mapping[int, set[int]], start: int, end: int) -> bool:
    """Whether a path leads from one node to another. One without edges leads from each to itself."""
    seen: set[int] = set()
    todo = [start]
    while todo:
        node = todo.pop()
        if node == end:
            return True
        if node not in seen:
            seen.add(node)
            todo.extend(successors.get(node, ()))
    return False


def without_detours(edges: list[Edge]) -> list[Edge]:
    """Returns edges without those that the others imply."""
    kept = list(edges)
    for edge in edges:
        rest = [other for other in kept if other != edge]
        if leads(successors_of(rest), *edge):
            kept = rest
    return kept


def strong_components(successors: Mapping[int, set[int]]) -> list[list[int]]:
    """Returns the groups of nodes that lead to each other (Tarjan's algorithm, without recursion)."""
    number: dict[int, int] = {}
    low: dict[int, int] = {}
    open_nodes: list[int] = []
    is_open: set[int] = set()
    components: list[list[int]] = []
    for root in {*successors, *(node for nodes in successors.values() for node in nodes)}:
        if root in number:
            continue
        work = [(root, iter(successors.get(root, ())))]
        while work:
            node, rest = work[-1]
            if node not in number:
                number[node] = low[node] = len(number)
                open_nodes.append(node)
                is_open.add(node)
            following = next(rest, None)
            if following is None:
                work.pop()
                if work:
                    low[work[-1][0]] = min(low[work[-1][0]], low[node])
                if low[node] == number[node]:
                    components.append(closed(node, open_nodes, is_open))
            elif following not in number:
                work.append((following, iter(successors.get(following, ()))))
            elif following in is_open:
                low[node] = min(low[node], low[following])
    return components


def closed(root: int, open_nodes: list[int], is_open: set[int]) -> list[int]:
    """Takes the group of a root off the open nodes."""
    component = []
    while True:
        node = open_nodes.pop()
        is_open.discard(node)
        component.append(node)
        if node == root:
            return component
