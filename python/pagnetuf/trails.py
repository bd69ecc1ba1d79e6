"""Edges of a graph as trails, each edge once, in as few trails as can be (L. Euler): of each connected part
half as many as corners where an odd number of edges ends, and at least one."""
from __future__ import annotations

from array import array
from typing import Iterator, List, Sequence, Tuple, Union

import numpy as np

from .arguments import rows_of


def strokes(edges: Union[np.ndarray, Sequence[Tuple[int, int]]]) -> List[List[int]]:
    """Edges as trails, each edge once, in as few trails as can be.

    Parameters
    ----------
    edges : int (E, 2)
        Pairs of the numbers of their ends.

    Returns
    -------
    list of list of int
        The vertices of each trail.
    """
    return list(each_stroke(edges))


def each_stroke(edges: Union[np.ndarray, Sequence[Tuple[int, int]]]) -> Iterator[List[int]]:
    """The trails, one after another."""
    pairs = rows_of("edges", edges, 2) if len(edges) else np.zeros((0, 2), np.int64)
    if len(pairs):
        graph = Graph(pairs)
        for start in graph.parts:
            yield from cut(graph.circuit(start), len(pairs))


class Graph:
    """The edges, and further ones that are there only to be left out again: then an even number ends
    everywhere. Numbers are kept in arrays without objects, since there are millions of them."""

    def __init__(self, pairs: np.ndarray):
        names, flat = np.unique(pairs, return_inverse=True)
        pairs = flat.reshape(-1, 2)
        part = parts_of(pairs, len(names))
        odd = np.flatnonzero(np.bincount(pairs.ravel(), minlength=len(names)) % 2)
        odd = odd[np.argsort(part[odd], kind="stable")]  # (an even number of them in each part)
        pairs = np.concatenate([pairs, odd.reshape(-1, 2)])
        here, there = pairs.T.ravel(), pairs[:, ::-1].T.ravel()
        order = np.argsort(here, kind="stable")
        self.names = names.tolist()
        self.others = array("i", there[order].astype(np.int32).tobytes())
        self.edges = array("i", (order % len(pairs)).astype(np.int32).tobytes())
        counts = np.bincount(here, minlength=len(names))
        self.ends = array("i", np.cumsum(counts).astype(np.int32).tobytes())
        self.begins = array("i", (np.cumsum(counts) - counts).astype(np.int32).tobytes())
        self.used = bytearray(len(pairs))
        self.parts = np.unique(part, return_index=True)[1].tolist()

    def circuit(self, start: int) -> Tuple["array[int]", "array[int]"]:
        """A closed trail through all edges of a part (C. Hierholzer), backwards: vertices, and the edge that
        leads on from each."""
        others, edges, begins, ends, used = self.others, self.edges, self.begins, self.ends, self.used
        names = self.names
        stack, by = array("i", [start]), array("i", [-1])
        out, along = array("q"), array("i")
        while stack:
            vertex = stack[-1]
            spot, end = begins[vertex], ends[vertex]
            while spot < end and used[edges[spot]]:
                spot += 1
            if spot < end:
                edge = edges[spot]
                used[edge] = 1
                begins[vertex] = spot + 1
                stack.append(others[spot])
                by.append(edge)
            else:
                begins[vertex] = spot
                out.append(names[stack.pop()])
                along.append(by.pop())
        return out, along


def parts_of(pairs: np.ndarray, count: int) -> np.ndarray:
    """The least vertex of the connected part of each vertex, each of which has an edge: int64 (count,)."""
    here, there = pairs.T.ravel(), pairs[:, ::-1].T.ravel()
    there = there[np.argsort(here, kind="stable")]
    counts = np.bincount(here, minlength=count)
    begins = np.cumsum(counts) - counts
    least = np.arange(count)
    while True:
        beside = np.minimum(least, np.minimum.reduceat(least[there], begins))
        low = beside.copy()
        np.minimum.at(low, least, beside)  # (what is least in a part so far goes with it)
        low = low[low]
        if (low == least).all():
            return least
        least = low


def cut(trail: Tuple["array[int]", "array[int]"], real: int) -> Iterator[List[int]]:
    """A closed trail without the edges from number `real` on."""
    vertices, along = trail  # (edge i joins vertex i and vertex i + 1; the last is none)
    steps = len(vertices) - 1
    extra = [i for i in range(steps) if along[i] >= real]
    if not extra:
        yield vertices.tolist()
        return
    for begin, end in zip(extra, extra[1:]):
        if end > begin + 1:
            yield vertices[begin + 1 : end + 1].tolist()
    last = vertices[extra[-1] + 1 :].tolist() + vertices[1 : extra[0] + 1].tolist()
    if len(last) > 1:
        yield last
