"""Random walks by Mirthwysa, from Python. Only the standard library is needed, and the program.

    import mirthwysa

    for walk in mirthwysa.walks("examples/karate.txt", length=10, seed=7):
        print(walk)

    mirthwysa.write_walks("walks.txt", graph, length=80, walkers=340, p=1, q="1/2")

A graph is the path of an edge list, an iterable of edges, or a networkx graph. Its vertices may have any hashable
names; the walks speak in these names. Nothing is kept in memory here but the names.
"""

import numbers
import operator
import os
import shutil
import signal
import subprocess
import tempfile
from decimal import Decimal
from fractions import Fraction

__all__ = [
    "walks",
    "write_walks",
    "MirthwysaError",
    "WordsError",
    "ProgrammeError",
    "LineError",
    "LimitError",
    "ReadError",
    "WriteError",
    "NoMemoryError",
]

GREATEST_ID = 2**32 - 1
GREATEST_WEIGHT = 2**32 - 1
GREATEST_PART = 1_000_000


class MirthwysaError(Exception):
    """The program ended with another status than 0. `status` is it, negative for a signal, and `line` what it said."""

    def __init__(self, status, line):
        super().__init__(line or f"the program ended with status {status}")
        self.status = status
        self.line = line


class WordsError(MirthwysaError):
    """Status 2: a number out of range, or an option that the program doesn't have."""


class ProgrammeError(MirthwysaError):
    """Status 3: a bad value of an option."""


class LineError(MirthwysaError):
    """Status 4: a bad line of an edge list."""


class LimitError(MirthwysaError):
    """Status 5: a limit is passed, the start isn't in the graph, or a vertex's weights are too great."""


class ReadError(MirthwysaError):
    """Status 6: a file can't be read."""


class WriteError(MirthwysaError):
    """Status 7: the output can't be written."""


class NoMemoryError(MirthwysaError):
    """Status 8: no memory was found."""


_ERRORS = {2: WordsError, 3: ProgrammeError, 4: LineError, 5: LimitError, 6: ReadError, 7: WriteError, 8: NoMemoryError}


def walks(graph, length=80, walkers="each", p=None, q=None, **options):
    """Returns a generator of walks, each a list of vertices, in the order of the walkers.

    graph     the path of an edge list; an iterable of edges (u, v), (u, v, weight), (u, v, weight, type) or
              (u, v, attributes); or a networkx graph. It is read when the first walk is asked for.
    length    the most steps of a walk, 0 to 1048576
    walkers   "each", one from every vertex; or their number, 0 to 16777216, which goes over the vertices in turn
    p, q      node2vec's return and in-out parameters, above 0; 1 where only the other one is given
    scheme    1 to 16 types of edges, wanted in turn (a meta-path)
    restart   chance before each step to go back to the start, 0 to 1
    stop      chance before each step to end, 0 to 1
    source    the vertex where all walkers start; needs a number of walkers
    directed  whether an edge leads one way only. By default a networkx graph knows it, and other graphs aren't directed
    weight    the attribute with an edge's weight, a whole number from 1 to 4294967295; None: all edges count the same
    edge_type the attribute with an edge's type, of which `scheme` speaks
    retries   tries by rejection before a row is scanned, 0 to 1000
    seed      0 to 18446744073709551615. The same graph, options and seed give the same walks
    parts, workers    as the program takes them
    program   the program; by default what MIRTHWYSA names in the environment, or the launcher of this repository

    p, q, restart and stop are exact: a Fraction, an int, a Decimal, a text as "1/2" or "0.25", or a float that has at
    most six decimals as it is printed. Vertices that are whole numbers from 0 to 4294967295 keep their order; other
    names are numbered as they come. A vertex without edges has no walk.

    Raises ValueError or TypeError for what isn't a graph or a number as above, and a MirthwysaError with the program's
    own line for what the program refuses. Closing the generator early ends the program.
    """
    return _lines(_Job(graph, length, walkers, p, q, **options), _walk_of)


def write_walks(path, graph, length=80, walkers="each", p=None, q=None, **options):
    """Writes the walks to the file at path, a line each, names separated by blanks, as gensim's `corpus_file` and
    LineSentence read them. The options are those of `walks`. Names are written as str() gives them, which must have no
    blanks and must not be shared by two vertices. The file appears when it is whole. Returns the number of walks."""
    job = _Job(graph, length, walkers, p, q, **options)
    part = f"{os.fspath(path)}.part"
    count = 0
    lines = _lines(job, _text_of)
    try:
        with open(part, "w", encoding="utf-8") as out:
            for line in lines:
                out.write(line)
                count += 1
        os.replace(part, path)
    finally:
        lines.close()
        if os.path.exists(part):
            os.remove(part)
    return count


def _walk_of(line, names):
    return names.back(line.split())


def _text_of(line, names):
    return names.text(line)


def exact(name, value):
    """Returns the number as an exact Fraction that the program takes, or says why there is none."""
    if isinstance(value, bool):
        raise TypeError(f"{name} is a number, not {value!r}")
    if isinstance(value, str):
        found = _read_text(name, value)
    elif isinstance(value, numbers.Rational):
        found = Fraction(int(value.numerator), int(value.denominator))
    elif isinstance(value, (float, Decimal)):
        found = _read_decimal(name, value)
    else:
        raise TypeError(f"{name} is a Fraction, an int, a Decimal, a text or a float, not {value!r}")
    if found < 0:
        raise ValueError(f"{name} is {value!r}, and may not be below 0")
    if max(found.numerator, found.denominator) > GREATEST_PART:
        raise ValueError(f"{name} is {found} in lowest terms, and neither number may be above {GREATEST_PART}")
    return found


def _read_text(name, text):
    try:
        return Fraction(text)
    except (ValueError, ZeroDivisionError):
        raise ValueError(f'{name} is {text!r}, which is no fraction such as "1/2" or "0.25"') from None


def _read_decimal(name, value):
    # A float stands for the decimal that Python prints for it.
    shown = Decimal(repr(float(value))) if isinstance(value, float) else value
    if not shown.is_finite():
        raise ValueError(f"{name} is {value!r}")
    found = Fraction(shown)
    if (found * 10**6).denominator != 1:
        raise ValueError(f'{name} is {value!r}, which has more than six decimals; give a Fraction, or a text such as "1/3"')
    return found


class _Names:
    """Vertices to ids and back. Whole numbers that are ids stay what they are until another name comes; then all
    vertices are numbered in the order in which they came."""

    def __init__(self):
        self.ids = None
        self.names = None
        self.texts = None

    def fits(self, name):
        """Whether the name is its own id."""
        return isinstance(name, numbers.Integral) and 0 <= name <= GREATEST_ID

    def number(self):
        """Numbers vertices from here on."""
        self.ids, self.names = {}, []

    def id(self, name):
        """Returns the id of a vertex, and None where all are to be numbered first."""
        if self.ids is None:
            return int(name) if self.fits(name) else None
        found = self.ids.get(name)
        if found is None:
            found = self.ids[name] = len(self.names)
            self.names.append(name)
        return found

    def known(self, name):
        """Returns the id of a vertex that was named before, or says that there is none."""
        found = (int(name) if self.fits(name) else None) if self.ids is None else self.ids.get(name)
        if found is None:
            raise ValueError(f"source is {name!r}, which no edge has")
        return found

    def back(self, ids):
        if self.names is None:
            return [int(it) for it in ids]
        names = self.names
        return [names[int(it)] for it in ids]

    def text(self, line):
        if self.names is None:
            return line
        if self.texts is None:
            self.texts = _texts_of(self.names)
        texts = self.texts
        return " ".join([texts[int(it)] for it in line.split()]) + "\n"


def _texts_of(names):
    texts = [str(it) for it in names]
    for name, text in zip(names, texts):
        if text.split() != [text]:
            raise ValueError(f"the name {name!r} can't be a word of a line: it is empty or has blanks")
    if len(set(texts)) < len(texts):
        raise ValueError("two vertices have the same str()")
    return texts


class _Job:
    """What is asked for, with its values judged as far as the program can't."""

    def __init__(
        self,
        graph,
        length,
        walkers,
        p,
        q,
        scheme=None,
        restart=None,
        stop=None,
        source=None,
        directed=None,
        weight="weight",
        edge_type="type",
        retries=None,
        seed=0,
        parts=1,
        workers=1,
        program=None,
    ):
        self.graph, self.source, self.weight, self.edge_type = graph, source, weight, edge_type
        self.is_path = isinstance(graph, (str, os.PathLike))
        self.is_networkx = hasattr(graph, "is_directed") and hasattr(graph, "edges")
        if directed is None:
            directed = self.is_networkx and graph.is_directed()
        if not self.is_path and not self.is_networkx and not hasattr(graph, "__iter__"):
            raise TypeError(f"a graph is a path, an iterable of edges or a networkx graph, not {graph!r}")
        if source is not None and walkers == "each":
            raise ValueError("source needs a number of walkers")
        self.scheme = None if scheme is None else list(scheme)
        self.keys = {"length": _whole("length", length)}
        self.keys["walkers"] = '"each"' if walkers == "each" else _whole("walkers", walkers)
        self.keys["weighted"] = "true" if weight is not None else "false"
        self.keys["undirected"] = "false" if directed else "true"
        if retries is not None:
            self.keys["retries"] = _whole("retries", retries)
        for name, value in (("stop", stop), ("restart", restart), ("p", p), ("q", q)):
            if value is not None:
                found = exact(name, value)
                self.keys[name] = f'"{found.numerator}/{found.denominator}"'
        self.options = [f"--seed={_whole('seed', seed)}"]
        self.options += [f"--parts={_whole('parts', parts)}", f"--workers={_whole('workers', workers)}"]
        self.program = program or os.environ.get("MIRTHWYSA") or _launcher()
        self.numbers = self._numbers_of_types()

    def _numbers_of_types(self):
        """Returns the number of each type of the scheme. Types that are numbers of the program stay what they are; of
        others those of the scheme are numbered, and all that aren't in it get one number more."""
        if self.scheme is None:
            return None
        if all(_is_type(it) for it in self.scheme):
            self.keys["scheme"] = [int(it) for it in self.scheme]
            return None
        if self.is_path:
            raise ValueError("the types of an edge list are whole numbers from 0 to 255")
        found = {}
        for it in self.scheme:
            found.setdefault(it, len(found))
        self.keys["scheme"] = [found[it] for it in self.scheme]
        return found

    def programme(self, names):
        keys = dict(self.keys)
        if self.source is not None:
            keys["from"] = names.known(self.source)
        return "".join(f"{key} = {value}\n" for key, value in keys.items())

    def edges(self):
        """Yields each edge as source, destination, weight and type."""
        for edge in self.graph.edges(data=True) if self.is_networkx else self.graph:
            if isinstance(edge, (str, bytes)) or not 2 <= len(edge) <= 4:
                raise ValueError(f"an edge is (u, v), (u, v, weight), (u, v, weight, type) or (u, v, attributes), not {edge!r}")
            u, v, weight, kind = (*edge, None, None)[:4]
            if hasattr(weight, "get"):
                weight, kind = weight.get(self.weight), weight.get(self.edge_type)
            yield u, v, self._weight(edge, weight), self._type(edge, kind)

    def _weight(self, edge, weight):
        if weight is None or self.weight is None:
            return 1
        if not isinstance(weight, numbers.Real) or weight != weight or not 1 <= weight <= GREATEST_WEIGHT or weight != int(weight):
            raise ValueError(f"the edge {edge!r} has the weight {weight!r}: weights are whole numbers from 1 to {GREATEST_WEIGHT}")
        return int(weight)

    def _type(self, edge, kind):
        if self.scheme is None:
            return 0
        if self.numbers is not None:
            return self.numbers.get(kind, len(self.numbers))
        if kind is None:
            return 0
        if not _is_type(kind):
            raise ValueError(f"the edge {edge!r} has the type {kind!r}: beside a scheme of numbers types are whole numbers from 0 to 255")
        return int(kind)

    def write_graph(self, path, names):
        """Writes the edge list to the path, and numbers the vertices where they aren't ids themselves."""
        with open(path, "w+", encoding="ascii") as out:
            for u, v, weight, kind in self.edges():
                if names.ids is None and not (names.fits(u) and names.fits(v)):
                    _renumber(out, names)
                out.write(f"{names.id(u)} {names.id(v)} {weight} {kind}\n")


def _renumber(file, names):
    """Writes the edges that the file has so far once more, with their vertices numbered."""
    names.number()
    with tempfile.TemporaryFile("w+", encoding="ascii") as before:
        file.seek(0)
        shutil.copyfileobj(file, before)
        before.seek(0)
        file.seek(0)
        file.truncate()
        for line in before:
            u, v, rest = line.split(" ", 2)
            file.write(f"{names.id(int(u))} {names.id(int(v))} {rest}")


def _is_type(kind):
    return isinstance(kind, numbers.Integral) and 0 <= kind <= 255


def _whole(name, value):
    try:
        return operator.index(value)
    except TypeError:
        raise TypeError(f"{name} is a whole number, not {value!r}") from None


def _launcher():
    top = os.path.dirname(os.path.dirname(os.path.dirname(os.path.realpath(__file__))))
    return os.path.join(top, "mirthwysa")


def _plain(path):
    """A file's name that the program takes for neither an option nor standard input."""
    path = os.fspath(path)
    return os.path.join(".", path) if path.startswith("-") else path


def _lines(job, made):
    """Runs the program, and yields what `made` makes of each line. However this ends, the program has ended with it and
    the temporary files are gone."""
    with tempfile.TemporaryDirectory(prefix="mirthwysa-") as room:
        names = _Names()
        graph = job.graph
        if not job.is_path:
            graph = os.path.join(room, "graph")
            job.write_graph(graph, names)
        programme = os.path.join(room, "programme")
        with open(programme, "w", encoding="ascii") as out:
            out.write(job.programme(names))
        words = [job.program, "walk", _plain(graph), programme, *job.options]
        with open(os.path.join(room, "error"), "w+", encoding="utf-8", errors="replace") as error:
            process = subprocess.Popen(
                words,
                stdin=subprocess.DEVNULL,
                stdout=subprocess.PIPE,
                stderr=error,
                encoding="ascii",
                start_new_session=True,
            )
            try:
                for line in process.stdout:
                    # A program that fails while it writes may leave a part of a line.
                    if line.endswith("\n"):
                        yield made(line, names)
                status = process.wait()
            finally:
                _end(process)
            if status:
                error.seek(0)
                told = error.read().strip().splitlines()
                raise _ERRORS.get(status, MirthwysaError)(status, told[-1] if told else "")


def _end(process):
    """Ends the program if it is still running, a launcher that builds it among them, and waits for it."""
    if process.poll() is None:
        process.terminate()
        try:
            process.wait(timeout=5)
        except subprocess.TimeoutExpired:
            os.killpg(process.pid, signal.SIGKILL)
    process.stdout.close()
    process.wait()
