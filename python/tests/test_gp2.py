"""Tests of the package. scripts/check-python runs them, with pytest where it is and else with unittest."""
import itertools
import os
import random
import tempfile
import unittest
from pathlib import Path
from unittest import mock

import gp2
from gp2.text import _Reader, read_printed, rules_of

try:
    import networkx
except ImportError:
    networkx = None

TOP = Path(__file__).resolve().parents[2]
EXAMPLES = TOP / "examples"
NUMBER = "Main = number!  number(x:string) [ (n, x) | ] => [ (n, x:0) | ] interface = {n}"
TOWNS = {
    "nodes": {"Aber": "Aber", ("St.", "Asaph"): "St. Asaph", 7: 1},
    "edges": [("Aber", 7, 12), (7, ("St.", "Asaph"))],
}


class Labels(unittest.TestCase):
    def test_what_is_a_label(self):
        for value, label in [
            (None, ()),
            (7, (7,)),
            ("a b", ("a b",)),
            ([1, "x"], (1, "x")),
            ((), ()),
            (-(2**127), (-(2**127),)),
        ]:
            graph = gp2.Graph()
            graph.add_node("a", value)
            self.assertEqual(graph.nodes["a"].label, label)

    def test_what_is_no_label(self):
        for value, error in [
            (1.5, TypeError),
            (True, TypeError),
            (2**127, ValueError),
            ('say "no"', ValueError),
            ("café", ValueError),
            ([[1]], TypeError),
        ]:
            with self.assertRaisesRegex(error, "node 'a': "):
                gp2.Graph().add_node("a", value)

    def test_marks(self):
        graph = gp2.Graph()
        graph.add_node("a", mark="grey")
        graph.add_edge("a", "a", mark="dashed")
        with self.assertRaisesRegex(ValueError, "'dashed' is not a mark for a node"):
            graph.add_node("b", mark="dashed")
        with self.assertRaisesRegex(ValueError, "'grey' is not a mark for an edge"):
            graph.add_edge("a", "a", mark="grey")
        with self.assertRaisesRegex(ValueError, "there is no node 'z'"):
            graph.add_edge("a", "z")
        with self.assertRaisesRegex(ValueError, "already a node 'a'"):
            graph.add_node("a")


class Texts(unittest.TestCase):
    def hosts(self):
        for file in sorted(EXAMPLES.rglob("*.host")):
            yield file, file.read_bytes().decode("latin-1")

    def test_every_host_comes_back(self):
        for file, text in self.hosts():
            with self.subTest(file=str(file)):
                graph = gp2.Graph.from_text(text)
                self.assertEqual(gp2.Graph.from_text(str(graph)), graph)
                self.assertEqual(gp2.Graph.from_dict(graph.to_dict()), graph)

    def test_both_readers_say_the_same(self):
        quick = 0
        for file, text in self.hosts():
            for text in (text, str(gp2.Graph.from_text(text))):
                quick += read_printed(text) is not None
                self.assertEqual(_Reader(text).host(gp2.Graph()), gp2.Graph.from_text(text), file)
        self.assertGreater(quick, 50)

    def test_every_host_is_taken_by_gp2(self):
        for file, text in self.hosts():
            with self.subTest(file=str(file)):
                graph = gp2.Graph.from_text(text)
                self.assertEqual(gp2.run("Main = skip", graph).text, gp2.run("Main = skip", file).text)

    def test_names(self):
        graph = gp2.Graph.from_dict({"nodes": ["if", "a b", 7, "7", "n1", ("x",), -1, "007", 2**127 + 1]})
        self.assertEqual(graph.host_names(), ["n0", "n1_", "7", "n3", "n1", "n5", "n6", "007", "n8"])
        self.assertEqual(list(gp2.run("Main = skip", graph).graph.nodes), list(graph.nodes))

    def test_what_is_no_host(self):
        for text, line in [
            ("[ (a, 1) ]", 1),
            ("[\n (a, 1)\n (a, 2) | ]", 3),
            ("[ | \n(e, a, b, 1) ]", 2),
            ("[ (a, 1 # dashed) | ]", 1),
            ("", 1),
            ("[\n  (a, 1)\n|\n  (e, a, b, 1)\n]\n", 4),
            ("[\n  (if, 1)\n|\n]\n", 2),
            ("[ (a, 1) | ] x", 1),
        ]:
            with self.assertRaisesRegex(ValueError, f"^host: line {line}: "):
                gp2.Graph.from_text(text)

    def test_dictionaries(self):
        graph = gp2.Graph.from_dict(
            {"edges": [("a", "b"), ("b", "c", 5), ("c", "c", {"mark": "red", "label": [1, "x"]})]}
        )
        self.assertEqual(list(graph.nodes), ["a", "b", "c"])
        self.assertEqual(graph.edges[2], gp2.Edge("c", "c", (1, "x"), "red"))
        for data, said in [
            ({"a": ["b"]}, "but not 'a'"),
            ({}, "neither nodes nor edges"),
            ({"nodes": {"a": {"labl": 1}}}, "'labl' is none of"),
            ({"edges": [("a",)]}, "a source, a target"),
            ({"nodes": ["a"], "edges": [("a", "b")]}, "no node 'b'"),
        ]:
            with self.assertRaisesRegex(ValueError, said):
                gp2.Graph.from_dict(data)


class Runs(unittest.TestCase):
    def test_names_are_kept(self):
        result = gp2.run(NUMBER, TOWNS)
        self.assertTrue(result)
        self.assertFalse(result.failed)
        self.assertEqual(result.nodes, {0: "Aber", 1: ("St.", "Asaph"), 2: 7})
        self.assertEqual(result.graph.nodes[("St.", "Asaph")].label, ("St. Asaph", 0))
        self.assertEqual(sorted(result.graph.edges, key=str), sorted(gp2.Graph.from_dict(TOWNS).edges, key=str))
        self.assertIsNone(result.journal)

    def test_new_and_deleted_nodes(self):
        program = "Main = swap  swap() [ (n, 1) | ] => [ (m, 2) (k, 3) | ] interface = {}"
        result = gp2.run(program, {"nodes": {"n2": 1, "b": 5}})
        self.assertEqual(result.new, ["n2_", "n3"])
        self.assertEqual(result.nodes, {0: "n2", 1: "b", 2: "n2_", 3: "n3"})
        self.assertEqual(list(result.graph.nodes), ["b", "n2_", "n3"])

    def test_kinds_of_graphs(self):
        text = (EXAMPLES / "tutorial/towns.host").read_text()
        wanted = gp2.run(EXAMPLES / "tutorial/loop.gp2", EXAMPLES / "tutorial/towns.host")
        program = (EXAMPLES / "tutorial/loop.gp2").read_text()
        for graph in (text, gp2.Graph.from_text(text), gp2.Graph.from_text(text).to_dict()):
            result = gp2.run(program, graph)
            self.assertEqual(result.text, wanted.text)
            self.assertEqual(result.graph, wanted.graph)
            self.assertEqual(list(result.graph.nodes), ["a", "b", "c", "d"])
        with self.assertRaisesRegex(TypeError, "a int is no graph"):
            gp2.run(program, 7)

    def test_failure(self):
        result = gp2.run("Main = fail", {"nodes": ["a"]}, journal=True)
        self.assertFalse(result)
        self.assertTrue(result.failed)
        self.assertEqual((result.text, result.nodes, len(result.journal)), ("fail\n", {0: "a"}, 0))
        with self.assertRaises(gp2.Fail) as caught:
            result.graph
        self.assertIs(caught.exception.result, result)

    def test_refusals(self):
        host = "[ (a, 1) | ]"
        for program, graph, file, fault, line, offset in [
            ("Main = r\n\nr(", host, "program", "Syntax line 3", 3, None),
            ("Main = skip\n'", host, "program", "BadByte 12", 2, 12),
            ("Main = skip", "[ (a, 1) | ", "host", "Syntax line 1", 1, None),
            ("Main = skip", "[\n\n (a, \xe9) | ]", "host", "BadByte 8", 3, 8),
            (
                "Main = r; s\nr() [ | ] => [ | ] interface = {}\ns() [ | ] => [ (n, y) | ] interface = {}",
                host,
                "program",
                "rule s: Unbound y",
                3,
                None,
            ),
            ("Main = r", host, "program", "Unknown r", None, None),
            ("Main = skip", "[ | (e, a, b, 1) ]", "host", "NoSuchEnd a", None, None),
        ]:
            with self.subTest(fault=fault), self.assertRaises(gp2.Refused) as caught:
                gp2.run(program, graph)
            self.assertEqual(
                (caught.exception.file, caught.exception.fault, caught.exception.line, caught.exception.offset),
                (file, fault, line, offset),
            )
            self.assertTrue(str(caught.exception).startswith(f"{file}: {fault}"))
        with self.assertRaisesRegex(ValueError, "a file is named by a pathlib.Path"):
            gp2.run("closure.gp2", host)
        with self.assertRaises(FileNotFoundError):
            gp2.run(Path("no-such.gp2"), host)

    def test_bound_and_numbers(self):
        with self.assertRaises(gp2.BoundSpent) as caught:
            gp2.run("Main = grow!  grow() [ | ] => [ (n, 1) | ] interface = {}", "[ | ]", bound=20)
        self.assertEqual(caught.exception.bound, 20)
        with self.assertRaises(ArithmeticError) as caught:
            gp2.run("Main = half  half(x:int) [ (n, x) | ] => [ (n, 1/x) | ] interface = {n}", {"nodes": {"a": 0}})
        self.assertEqual((caught.exception.rule, caught.exception.kind), ("half", "zero-divisor"))

    def test_options(self):
        for options, error in [
            ({"workers": 0}, ValueError),
            ({"bound": -1}, ValueError),
            ({"seed": 2**64}, ValueError),
            ({"seed": 1.0}, TypeError),
            ({"bound": True}, TypeError),
        ]:
            with self.assertRaises(error):
                gp2.run("Main = skip", "[ | ]", **options)
        results = {bool(gp2.run("Main = skip or fail", "[ | ]", seed=seed)) for seed in range(20)}
        self.assertEqual(results, {True, False})
        self.assertTrue(gp2.run(NUMBER, TOWNS, workers=3, bound=2**40))

    def test_a_failed_run_leaves_no_files(self):
        with tempfile.TemporaryDirectory() as room, mock.patch.object(tempfile, "tempdir", room):
            gp2.run("Main = skip", "[ | ]")
            with self.assertRaises(gp2.Refused):
                gp2.run("(", "[ | ]")
            self.assertEqual(os.listdir(room), [])


class Journals(unittest.TestCase):
    LINK = (
        "Main = P!  P = [ go(x:int) [ (n, x) (m, 1) | (e(B), n, m, 1) ] => [ (n, 2) (m, 1) | (e(B), n, m, 1) ]"
        " interface = {n, m} where x != 2 ] go"
    )

    def test_items(self):
        result = gp2.run(self.LINK, {"nodes": {"a": 1, "b": 7}, "edges": [("a", "b", 1)]}, journal=True)
        self.assertEqual([item.kind for item in result.journal], ["turn", "step", "turn", "back"])
        step = result.journal[1]
        self.assertEqual(
            (step.rule, step.rule_number, step.nodes, step.edges, step.against), ("go", 0, ("b", "a"), (0,), (0,))
        )
        self.assertEqual((result.journal[-1].undone, len(result.journal[1:])), (0, 3))
        self.assertTrue(result.journal.text.startswith("gp2-trace 2\nturn\n"))
        self.assertTrue(result.journal.text.endswith("\nend\n"))

    def test_rules_of_all_examples(self):
        for file in sorted(EXAMPLES.rglob("*.gp2")):
            with self.subTest(file=str(file)):
                program = file.read_text()
                names = [rule.name for rule in rules_of(program)]
                self.assertEqual(names, [rule.name for rule in rules_of(gp2.fmt(file))])
                self.assertEqual(
                    program.count("interface ="),
                    len(names)
                    + "\n".join(line for line in program.split("\n") if line.startswith("//")).count("interface ="),
                )

    def test_check(self):
        result = gp2.run(NUMBER, TOWNS, journal=True)
        self.assertTrue(gp2.check(NUMBER, TOWNS, result))
        self.assertTrue(gp2.check(NUMBER, TOWNS, result.journal.text, result.text))
        self.assertFalse(gp2.check(NUMBER, TOWNS, result.journal.text, "fail\n"))
        with self.assertRaisesRegex(gp2.Refused, "trace: Line 2"):
            gp2.check(NUMBER, TOWNS, "gp2-trace 2\nx\n", "fail\n")
        with self.assertRaisesRegex(ValueError, "no journal"):
            gp2.check(NUMBER, TOWNS, gp2.run(NUMBER, TOWNS))

    def test_steps(self):
        for program, graph in [
            (NUMBER, TOWNS),
            (EXAMPLES / "tutorial/depth-first.gp2", EXAMPLES / "tutorial/roads.host"),
            ("Main = fail", TOWNS),
            ("Main = skip", "[ | ]"),
        ]:
            result = gp2.run(program, graph, journal=True)
            places = list(gp2.steps(program, graph))
            self.assertEqual([place.item for place in places], [None, *result.journal])
            if result:
                self.assertEqual(places[-1].to_dict(), result.graph.to_dict())
        self.assertEqual(places[0], gp2.Graph())
        self.assertEqual(len(list(itertools.islice(gp2.steps(NUMBER, TOWNS), 2))), 2)
        with self.assertRaises(gp2.Refused):
            next(gp2.steps("(", TOWNS))

    def test_steps_that_end_early(self):
        with tempfile.TemporaryDirectory() as room:
            other = Path(room) / "gp2"  # runs, but does not step
            other.write_text(f'#!/bin/sh\n[ "$1" != step ] || exit 7\nexec "{gp2.find_program()}" "$@"\n')
            other.chmod(0o755)
            with mock.patch.dict(os.environ, {"GP2_PROGRAM": str(other)}), self.assertRaises(gp2.OutOfMemory):
                list(gp2.steps(NUMBER, TOWNS))

    def test_steps_of_examples(self):
        for folder in ("euler-circuit", "transitive-closure", "search-tree"):
            for host in (EXAMPLES / folder).glob("*.host"):
                program = EXAMPLES / folder / f"{folder}.gp2"
                result = gp2.run(program, host)
                last = list(gp2.steps(program, host))[-1]
                if result:
                    self.assertEqual(last.to_dict(), result.graph.to_dict())

    def test_fmt(self):
        self.assertEqual(gp2.fmt("Main=(skip)"), "Main = skip\n")
        with self.assertRaises(gp2.Refused):
            gp2.fmt("Main=(")


class Finding(unittest.TestCase):
    def test_named_program(self):
        with mock.patch.dict(os.environ, {"GP2_PROGRAM": "/no/such/gp2"}), self.assertRaisesRegex(
            gp2.ProgramNotFound, "GP2_PROGRAM is /no/such/gp2"
        ):
            gp2.run("Main = skip", "[ | ]")

    def test_version(self):
        self.assertEqual(gp2.__version__, (TOP / "VERSION").read_text().strip())


@unittest.skipIf(networkx is None, "networkx is not installed")
class Networks(unittest.TestCase):
    def test_through_a_run(self):
        graph = networkx.DiGraph()
        graph.add_node("Aber", label="Aber", root=True)
        graph.add_node(("St.", "Asaph"), label=["St. Asaph", 3355], mark="grey")
        graph.add_node("none")
        graph.add_edge("Aber", ("St.", "Asaph"), label=31, mark="red", other=1.5)
        again = gp2.run("Main = skip", graph).to_networkx()
        self.assertEqual(
            dict(again.nodes(data=True)),
            {
                "Aber": {"label": "Aber", "root": True},
                ("St.", "Asaph"): {"label": ("St. Asaph", 3355), "mark": "grey"},
                "none": {"label": ()},
            },
        )
        self.assertEqual(list(again.edges(data=True)), [("Aber", ("St.", "Asaph"), {"label": 31, "mark": "red"})])
        self.assertIsInstance(again, networkx.MultiDiGraph)

    def test_attributes(self):
        graph = networkx.MultiDiGraph([("a", "b", {"weight": 5}), ("a", "b", {"weight": 6})])
        networkx.set_node_attributes(graph, {"a": {"name": "A", "size": 1}, "b": {"size": 2}})
        made = gp2.Graph.from_networkx(graph, node_label=("name", "size"), edge_label="weight")
        self.assertEqual([node.label for node in made.nodes.values()], [("A", 1), (2,)])
        again = made.to_networkx(node_label=("name", "size"), edge_label="weight")
        self.assertEqual(sorted(data["weight"] for *_, data in again.edges(data=True)), [5, 6])
        with self.assertRaisesRegex(ValueError, "more atoms than there are names"):
            made.to_networkx(node_label=("name",))
        with self.assertRaisesRegex(ValueError, "a DiGraph has at most one edge"):
            made.to_networkx(create_using=networkx.DiGraph)
        with self.assertRaisesRegex(ValueError, "no names for parts of labels"):
            made.to_networkx(edge_label="mark")
        with self.assertRaisesRegex(TypeError, "^edge from 'a' to 'b': 1.5 is neither"):
            gp2.Graph.from_networkx(networkx.DiGraph([("a", "b", {"label": 1.5})]))

    def test_same_as_add_edge(self):
        chosen = random.Random(5)
        for _ in range(20):
            graph = gp2.Graph()
            for name in range(chosen.randint(1, 8)):
                graph.add_node(
                    name, chosen.choice([(), 1, ("a", 2)]), chosen.choice([None, "red"]), chosen.random() < 0.2
                )
            wanted = networkx.MultiDiGraph()
            wanted.add_nodes_from(graph.to_networkx().nodes(data=True))
            for _ in range(chosen.randint(0, 25)):
                source, target = chosen.choices(list(graph.nodes), k=2)
                graph.add_edge(source, target, 7, chosen.choice([None, "dashed"]))
                wanted.add_edge(source, target, label=7, **({"mark": "dashed"} if graph.edges[-1].mark else {}))
            made = graph.to_networkx()
            self.assertEqual(list(made.edges(keys=True, data=True)), list(wanted.edges(keys=True, data=True)))
            self.assertEqual((made.succ, made.pred), (wanted.succ, wanted.pred))
            made.remove_node(0)  # as of any other graph
            self.assertEqual(made.number_of_edges(), sum(0 not in (edge.source, edge.target) for edge in graph.edges))
            self.assertEqual(gp2.Graph.from_networkx(wanted), graph)

    def test_undirected(self):
        graph = networkx.Graph([("a", "b"), ("b", "b")])
        with self.assertRaisesRegex(ValueError, "the graph is undirected"):
            gp2.run("Main = skip", graph)
        with self.assertRaisesRegex(ValueError, "neither"):
            gp2.Graph.from_networkx(graph, undirected="three")
        ends = [(edge.source, edge.target) for edge in gp2.Graph.from_networkx(graph, undirected="one").edges]
        self.assertEqual(ends, [("a", "b"), ("b", "b")])
        ends = [(edge.source, edge.target) for edge in gp2.Graph.from_networkx(graph, undirected="both").edges]
        self.assertEqual(ends, [("a", "b"), ("b", "a"), ("b", "b")])


if __name__ == "__main__":
    unittest.main()
