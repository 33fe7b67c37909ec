"""Tests of the Python module. They run the program that MIRTHWYSA names in the environment, or this repository's launcher.

    python3 -m unittest discover -s clients/python
"""

import os
import stat
import tempfile
import time
import unittest
from decimal import Decimal
from fractions import Fraction

import mirthwysa

TOP = os.path.dirname(os.path.dirname(os.path.dirname(os.path.realpath(__file__))))
KARATE = os.path.join(TOP, "examples", "karate.txt")
RING = [("ann", "bob"), ("bob", "cid"), ("cid", "ann")]

try:
    import networkx
except ImportError:
    networkx = None


def fake(folder, text):
    """Returns a program of a few lines of shell."""
    path = os.path.join(folder, "fake")
    with open(path, "w") as out:
        out.write("#!/bin/sh\n" + text)
    os.chmod(path, os.stat(path).st_mode | stat.S_IXUSR)
    return path


class Exact(unittest.TestCase):
    def test_what_is_taken(self):
        for value, wanted in [
            (Fraction(1, 3), "1/3"),
            (4, "4"),
            (0, "0"),
            ("1/2", "1/2"),
            ("0.25", "1/4"),
            (Decimal("0.15"), "3/20"),
            (0.15, "3/20"),
            (0.000001, "1/1000000"),
            (2.0, "2"),
            (1000000, "1000000"),
        ]:
            self.assertEqual(str(mirthwysa.exact("p", value)), wanted, value)

    def test_what_is_refused(self):
        for value in (1 / 3, 0.1 + 0.2, 1e-7, float("nan"), float("inf"), -1, "a", "1/0", 1000001, Fraction(1, 1000001), Decimal("0.1234567")):
            with self.assertRaises(ValueError, msg=repr(value)):
                mirthwysa.exact("p", value)
        for value in (True, None, [1]):
            with self.assertRaises(TypeError, msg=repr(value)):
                mirthwysa.exact("p", value)

    def test_a_float_is_refused_before_anything_runs(self):
        with self.assertRaisesRegex(ValueError, "more than six decimals"):
            mirthwysa.walks(KARATE, restart=1 / 3, program="/nowhere")


class Walks(unittest.TestCase):
    def test_the_walks_of_the_command(self):
        # The list has each edge both ways. With one step and one edge there is one walk alone.
        self.assertEqual(list(mirthwysa.walks([(5, 9)], length=3, directed=True)), [[5, 9], [9]])
        self.assertEqual(list(mirthwysa.walks([(5, 9)], length=3)), [[5, 9, 5, 9], [9, 5, 9, 5]])
        first = next(iter(mirthwysa.walks(KARATE, length=10, seed=7, directed=True, weight=None)))
        self.assertEqual(first, [1, 9, 33, 9, 33, 3, 2, 14, 2, 18, 2])

    def test_edges_are_walked_as_in_a_file(self):
        with open(KARATE) as lines:
            edges = [tuple(map(int, it.split())) for it in lines if it[0] != "#"]
        given = dict(length=20, seed=3, p="1/4", q=4, walkers=50)
        self.assertEqual(list(mirthwysa.walks(edges, **given)), list(mirthwysa.walks(KARATE, **given)))

    def test_names_come_back(self):
        for walk in mirthwysa.walks(RING, length=4, directed=True):
            order = ["ann", "bob", "cid"]
            start = order.index(walk[0])
            self.assertEqual(walk, [order[(start + i) % 3] for i in range(5)])

    def test_names_of_several_kinds(self):
        edges = [(1, 2), (2, ("a", 3)), (("a", 3), None), (None, 1)]
        found = list(mirthwysa.walks(edges, length=3, directed=True))
        self.assertEqual(found[0], [1, 2, ("a", 3), None])
        self.assertEqual(len(found), 4)

    def test_weights_and_types(self):
        edges = [("a", "b", 4294967295, "likes"), ("a", "c", 1, "hates"), ("b", "a", 1, "likes"), ("c", "a", 1, "likes")]
        given = dict(length=4, directed=True, source="a", walkers=20)
        self.assertEqual({tuple(it) for it in mirthwysa.walks(edges, **given)}, {("a", "b", "a", "b", "a")})
        found = {tuple(it) for it in mirthwysa.walks(edges, scheme=["hates", "likes"], retries=0, **given)}
        self.assertEqual(found, {("a", "c", "a", "c", "a")})
        self.assertEqual({len(it) for it in mirthwysa.walks(edges, scheme=["loves"], **given)}, {1})
        both = {tuple(it) for it in mirthwysa.walks(edges, weight=None, **given)}
        self.assertGreater(len(both), 1)

    def test_attributes_of_edges(self):
        edges = [("a", "b", {"weight": 4294967295, "type": 1}), ("a", "c", {}), ("c", "a", {"type": 0})]
        given = dict(length=2, directed=True, source="a", walkers=20)
        self.assertEqual({tuple(it) for it in mirthwysa.walks(edges, **given)}, {("a", "b")})
        self.assertEqual({tuple(it) for it in mirthwysa.walks(edges, scheme=[0], **given)}, {("a", "c", "a")})

    def test_restart_and_stop(self):
        given = dict(source="ann", walkers=5, directed=True)
        self.assertEqual(list(mirthwysa.walks(RING, length=3, restart=1, **given)), [["ann"] * 4] * 5)
        self.assertEqual(list(mirthwysa.walks(RING, length=3, stop=1.0, **given)), [["ann"]] * 5)

    def test_edges_that_are_none(self):
        for edge in ["ab", (1,), (1, 2, 3, 4, 5), (1, 2, 0), (1, 2, 0.5), (1, 2, -1), (1, 2, "x"), (1, 2, 4294967296), (1, 2, float("nan"))]:
            with self.assertRaises(ValueError, msg=repr(edge)):
                list(mirthwysa.walks([edge]))
        with self.assertRaises(ValueError):
            list(mirthwysa.walks([(1, 2, 1, 256)], scheme=[0]))
        with self.assertRaises(TypeError):
            mirthwysa.walks(5)
        with self.assertRaises(ValueError):
            list(mirthwysa.walks(RING, source="dan", walkers=1))
        with self.assertRaises(ValueError):
            mirthwysa.walks(RING, source="ann")
        with self.assertRaises(TypeError):
            mirthwysa.walks(RING, length=1.5)

    @unittest.skipUnless(networkx, "networkx isn't installed")
    def test_networkx(self):
        graph = networkx.DiGraph()
        graph.add_edge("a", "b", weight=2)
        graph.add_edge("b", "c")
        self.assertEqual(list(mirthwysa.walks(graph, length=5)), [["a", "b", "c"], ["b", "c"], ["c"]])
        self.assertEqual(list(mirthwysa.walks(networkx.Graph([("x", "y")]), length=2)), [["x", "y", "x"], ["y", "x", "y"]])
        double = networkx.MultiDiGraph([("a", "b"), ("a", "b")])
        self.assertEqual(list(mirthwysa.walks(double, length=2)), [["a", "b"], ["b"]])
        club = networkx.karate_club_graph()
        for walk in mirthwysa.walks(club, length=8, p=2, q=0.5):
            self.assertEqual(len(walk), 9)
            self.assertTrue(all(club.has_edge(u, v) for u, v in zip(walk, walk[1:])))


class Statuses(unittest.TestCase):
    def told(self, error, line, graph, **options):
        with self.assertRaises(error) as caught:
            list(mirthwysa.walks(graph, **options))
        self.assertEqual(caught.exception.line, line)
        self.assertEqual(str(caught.exception), line)

    def test_of_the_program(self):
        self.told(mirthwysa.WordsError, "error: words", RING, seed=2**64)
        self.told(mirthwysa.ProgrammeError, "error: programme: bad value length", RING, length=-1)
        self.told(mirthwysa.LimitError, "error: no start 99", KARATE, source=99, walkers=1)
        self.told(mirthwysa.LimitError, "error: limit: path entries", RING, length=1048576, walkers=16777216)
        with tempfile.TemporaryDirectory() as folder:
            path = os.path.join(folder, "bad")
            with open(path, "w") as out:
                out.write("1 2\n1 two\n")
            self.told(mirthwysa.LineError, "error: line 2: number", path)
            missing = os.path.join(folder, "missing")
            self.told(mirthwysa.ReadError, f"error: read {missing}", missing)

    def test_after_some_walks(self):
        for status, error in ((7, mirthwysa.WriteError), (8, mirthwysa.NoMemoryError), (1, mirthwysa.MirthwysaError)):
            with tempfile.TemporaryDirectory() as folder:
                program = fake(folder, f"echo 0 1; printf '1 '; echo 'error: late' >&2; exit {status}\n")
                found = mirthwysa.walks(RING, program=program)
                self.assertEqual(next(found), ["ann", "bob"])
                with self.assertRaises(error) as caught:
                    next(found)
                self.assertEqual((caught.exception.status, caught.exception.line), (status, "error: late"))


class Ends(unittest.TestCase):
    def test_closing_early_ends_the_program(self):
        with tempfile.TemporaryDirectory() as folder:
            mark = os.path.join(folder, "pid")
            program = fake(folder, f'echo $$ >{mark}; echo "$3" >{mark}.graph; echo 0 1; while :; do sleep 0.1; echo 1 2; done\n')
            found = mirthwysa.walks(RING, program=program)
            self.assertEqual(next(found), ["ann", "bob"])
            with open(mark) as it:
                process = int(it.read())
            with open(f"{mark}.graph") as it:
                self.assertNotEqual(it.read(), "")
            began = time.monotonic()
            found.close()
            self.assertLess(time.monotonic() - began, 4)
            with self.assertRaises(ProcessLookupError):
                os.kill(process, 0)

    def test_no_file_is_left(self):
        with tempfile.TemporaryDirectory() as folder:
            kept, tempfile.tempdir = tempfile.tempdir, folder
            try:
                list(mirthwysa.walks(RING, length=2))
                with self.assertRaises(mirthwysa.ProgrammeError):
                    list(mirthwysa.walks(RING, length=-1))
                found = mirthwysa.walks(RING, length=2)
                next(found)
                self.assertEqual(len(os.listdir(folder)), 1)
                found.close()
                self.assertEqual(os.listdir(folder), [])
            finally:
                tempfile.tempdir = kept


class Corpus(unittest.TestCase):
    def test_a_line_a_walk(self):
        with tempfile.TemporaryDirectory() as folder:
            path = os.path.join(folder, "walks.txt")
            self.assertEqual(mirthwysa.write_walks(path, RING, length=2, directed=True), 3)
            with open(path) as it:
                self.assertEqual(it.read(), "ann bob cid\nbob cid ann\ncid ann bob\n")
            self.assertEqual(os.listdir(folder), ["walks.txt"])

    def test_nothing_is_left_of_a_failure(self):
        with tempfile.TemporaryDirectory() as folder:
            path = os.path.join(folder, "walks.txt")
            for edges in [("a b", "c")], [("", "c")], [(1, "1")]:
                with self.assertRaises(ValueError, msg=repr(edges)):
                    mirthwysa.write_walks(path, edges)
            with self.assertRaises(mirthwysa.ProgrammeError):
                mirthwysa.write_walks(path, RING, length=-1)
            self.assertEqual(os.listdir(folder), [])


if __name__ == "__main__":
    unittest.main()
