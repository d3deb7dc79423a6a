"""Graphs of code, against networkx."""
import networkx
from hypothesis import given, settings, strategies

from fptools.code.digraph import Dominators, Graph

NODES = range(9)
EDGES = strategies.lists(strategies.tuples(*[strategies.sampled_from(NODES)] * 2), max_size=30)


def both(edges: list[tuple[int, int]]) -> tuple[Graph[int], networkx.DiGraph]:
    """A graph of all nodes, and the same one of networkx."""
    other = networkx.DiGraph()
    other.add_nodes_from(NODES)
    other.add_edges_from(edges)
    return Graph(edges, NODES), other


@settings(max_examples=300, derandomize=True, deadline=None)
@given(EDGES)
def test_what_is_reached_and_the_parts(edges: list[tuple[int, int]]) -> None:
    graph, other = both(edges)
    assert graph.edges == list(other.edges)
    assert graph.parts() == list(networkx.strongly_connected_components(other))
    for node in NODES:
        assert graph.reached(node) == list(networkx.bfs_tree(other, node))
        assert graph.ancestors(node) == networkx.ancestors(other, node)
        assert list(graph.predecessors(node)) == list(other.predecessors(node))
    kept = set(NODES[::2])
    assert set(graph.subgraph(kept).edges) == set(other.subgraph(kept).edges)
    assert set(graph.subgraph(kept)) == kept


@settings(max_examples=300, derandomize=True, deadline=None)
@given(EDGES)
def test_dominators(edges: list[tuple[int, int]]) -> None:
    graph, other = both(edges)
    above = networkx.immediate_dominators(other, 0)
    assert graph.immediate_dominators(0) == above
    dominators = Dominators(graph, 0)
    for one in above:
        without = graph.subgraph(set(NODES) - {one})
        kept = set(without.reached(0)) if one != 0 else set()
        assert {it for it in above if dominators.has(one, it)} == set(above) - kept
