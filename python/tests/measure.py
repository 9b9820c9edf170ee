"""Measures how long a networkx graph of 10^5 nodes and 3*10^5 edges takes to a host, and back: scripts/check-python
--measure."""
import random
import time

import networkx

import gp2
from gp2.text import read_printed

NODES, EDGES = 100_000, 300_000


def made() -> networkx.MultiDiGraph:
    chosen = random.Random(7)
    graph = networkx.MultiDiGraph()
    for number in range(NODES):
        graph.add_node(f"town {number}", label=(f"town {number}", chosen.randrange(10**6)))
    names = list(graph)
    for _ in range(EDGES):
        graph.add_edge(
            chosen.choice(names), chosen.choice(names), label=chosen.randrange(1000), mark=chosen.choice([None, "red"])
        )
    return graph


def main() -> None:
    graph = made()
    began = time.perf_counter(), time.process_time()
    text = str(gp2.Graph.from_networkx(graph))
    print(f"to a host: {time.perf_counter() - began[0]:.2f} s ({time.process_time() - began[1]:.2f} s of a processor)")
    began = time.perf_counter(), time.process_time()
    again = gp2.Graph.from_text(text).to_networkx()
    print(f"and back: {time.perf_counter() - began[0]:.2f} s ({time.process_time() - began[1]:.2f} s of a processor)")
    assert read_printed(text) and again.number_of_nodes() == NODES and again.number_of_edges() == EDGES
    began = time.perf_counter(), time.process_time()
    sum(range(10**7))
    for _ in range(10**7):
        pass
    print(
        f"for comparison, two loops of 10^7 rounds: {time.perf_counter() - began[0]:.2f} s "
        f"({time.process_time() - began[1]:.2f} s of a processor)"
    )


if __name__ == "__main__":
    main()
