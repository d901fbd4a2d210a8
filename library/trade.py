"""Systems of components in Python, by the C library beside this file: libtrade.so, which `./trade library` builds.

    from trade import World

    with World.load(open("examples/echo.toml", "rb").read()) as world:
        for leaf, line in world.run():
            print(world.label(world.node(leaf)), line)

Leaves and nodes are numbers, from 0 in preorder; what is no whole number raises TypeError. A world stays on the thread that loaded it: a call on another
thread raises RuntimeError. End a world by `close` or a `with` statement. The library is the one beside this file, or the one that `./trade install` put into the same PREFIX; TRADE_LIBRARY in the
environment names another file. Python 3.8 is enough.
"""
from __future__ import annotations

import ctypes
import enum
import operator
import os
import pathlib
import threading
import warnings
from dataclasses import dataclass
from typing import Any, Callable, Iterator, Optional, Tuple, Union

__all__ = ["Account", "Budget", "Event", "InputError", "Phase", "Reaction", "Refused", "SignalError", "Turn", "Turns", "World", "fault_of"]

_NONE = 0xFFFFFFFF
_LOADED, _REFUSED, _MEMORY = 0, 1, 3
_NO_INPUT, _TOO_LARGE = 1, 2
_SUBMITTED = 0
# The greatest line of a leaf; and a room for labels and faults, which grows where it is too small.
_LINE, _TEXT = 64, 256
# How many turns `run` asks for at once: between two such calls Python sees an interrupt.
_SOME_TURNS = 1 << 20


class Refused(ValueError):
    """A scenario is refused. Its text is the fault's line, as `trade check` prints it."""


class InputError(ValueError):
    """A leaf has no such input, or the number is above its greatest value."""


class SignalError(ValueError):
    """A leaf has no such signal."""


class Event(enum.IntEnum):
    """What a turn did."""

    IDLE = 0
    QUIET = 1
    LINE = 2
    FINISHED = 3


class Phase(enum.IntEnum):
    """What a leaf does."""

    PENDING = 0
    RUNNING = 1
    BLOCKED = 2
    SERVING = 3
    HANDLING = 4
    EXITED = 5


@dataclass(frozen=True)
class Turn:
    """What one turn did: its event, and the text of its line, if it gave one."""

    event: Event
    line: Optional[str]


@dataclass(frozen=True)
class Turns:
    """What turns did: how many were steps, the event of the last step, and the text of its line, if it gave one."""

    taken: int
    event: Event
    line: Optional[str]


@dataclass(frozen=True)
class Account:
    """The account of a node, in bytes, capabilities and steps. Of an init the phase is None, and all but quota and caps is 0."""

    quota: int
    used: int
    caps: int
    taken: int
    steps: int
    budget: int
    phase: Optional[Phase]


@dataclass(frozen=True)
class Budget:
    """The verified bounds of a leaf: bytes and capabilities of its own, and steps from the start, without signals."""

    own: int
    own_caps: int
    steps: int


@dataclass(frozen=True)
class Reaction:
    """The verified bounds of a signal: how many steps it takes at most each time that it is taken, of its leaf and of all leaves together."""

    steps: int
    all: int


class _World(ctypes.Structure):
    _fields_ = [("at", ctypes.c_void_p)]


class _Account(ctypes.Structure):
    _fields_ = [(name, ctypes.c_uint64) for name in ("quota", "used", "caps", "taken", "steps", "budget")] + [("phase", ctypes.c_uint32)]


class _Budget(ctypes.Structure):
    _fields_ = [(name, ctypes.c_uint64) for name in ("own", "own_caps", "steps")]


class _Reaction(ctypes.Structure):
    _fields_ = [(name, ctypes.c_uint64) for name in ("steps", "all")]


def _beside() -> str:
    """The library beside this file; where this file was installed, the one that was installed with it."""
    here = pathlib.Path(__file__).resolve()
    installed = here.parents[2] / "libtrade.so" if len(here.parents) > 2 else here
    beside = here.with_name("libtrade.so")
    return str(installed if installed.is_file() and not beside.is_file() else beside)


def _opened() -> ctypes.CDLL:
    """The library, with the types of its functions, as trade.h has them. OSError if it can't be opened."""
    path = os.environ.get("TRADE_LIBRARY") or _beside()
    try:
        library = ctypes.CDLL(path)
    except OSError as fault:
        raise OSError(f"{fault} (`./trade library` builds libtrade.so; TRADE_LIBRARY names another file)") from None
    world, text, size, number = ctypes.POINTER(_World), ctypes.c_char_p, ctypes.c_size_t, ctypes.c_uint32
    sizes, numbers, flag = ctypes.POINTER(size), ctypes.POINTER(number), ctypes.c_bool
    types = {
        "trade_load": (number, text, size, world),
        "trade_fault": (number, text, size, text, size, sizes),
        "trade_nodes": (number, world),
        "trade_leaves": (number, world),
        "trade_leaf": (number, world, text, size),
        "trade_node": (number, world, number),
        "trade_label": (flag, world, number, text, size, sizes),
        "trade_read_account": (flag, world, number, ctypes.POINTER(_Account)),
        "trade_read_budget": (flag, world, number, ctypes.POINTER(_Budget)),
        "trade_set_input": (number, world, number, number, number),
        "trade_read_reaction": (flag, world, number, number, ctypes.POINTER(_Reaction)),
        "trade_signal": (number, world, number, number),
        "trade_at_rest": (flag, world),
        "trade_turn": (number, world, number, text, size, sizes),
        "trade_turns": (number, world, number, number, numbers, text, size, sizes),
        "trade_run": (number, world, number, numbers, numbers, text, size, sizes),
        "trade_drop": (None, world),
    }
    for name, (result, *arguments) in types.items():
        function = getattr(library, name)
        function.restype, function.argtypes = result, arguments
    return library


_library: Optional[ctypes.CDLL] = None


def _calls() -> ctypes.CDLL:
    """The library, which is opened at its first use."""
    global _library
    if _library is None:
        _library = _opened()
    return _library


def _bytes(text: Union[str, bytes]) -> bytes:
    """A text as C takes it. TypeError if it is none: `bytes` makes zeros of a number."""
    if not isinstance(text, (str, bytes, bytearray, memoryview)):
        raise TypeError(f"no text: {text!r}")
    return text.encode() if isinstance(text, str) else bytes(text)


def _whole(value: Any, what: str) -> int:
    """A whole number. TypeError if it is none: C would cut 0.5, and takes no text."""
    try:
        return operator.index(value)
    except TypeError:
        raise TypeError(f"{what} is no whole number: {value!r}") from None


def _number(value: int, what: str) -> int:
    """A number that C can take. IndexError if it is too large or negative, TypeError if it is no whole number."""
    if not 0 <= _whole(value, what) < _NONE:
        raise IndexError(f"no {what} {value}")
    return value


def fault_of(scenario: Union[str, bytes]) -> Optional[str]:
    """The line of the first fault of a scenario, or None if it is accepted. MemoryError if memory runs out."""
    text, room, written = _bytes(scenario), _TEXT, ctypes.c_size_t()
    while True:
        line = ctypes.create_string_buffer(room)
        status = _calls().trade_fault(text, len(text), line, room, ctypes.byref(written))
        if status == _MEMORY:
            raise MemoryError("host memory refused")
        if status == _LOADED:
            return None
        if written.value <= room:
            return line.raw[: written.value].decode(errors="replace")
        room = written.value


class _Here(threading.local):
    """A mark of the thread that reads it, which no other thread has, nor a later one."""

    def __init__(self) -> None:
        self.mark = object()


_here = _Here()


class World:
    """A system of components between two turns. Make one by `World.load`, and end it by `close` or a `with` statement, on the same thread."""

    def __init__(self) -> None:
        self._held, self._thread, self._process = _World(None), _here.mark, os.getpid()
        self._line, self._written, self._taken = ctypes.create_string_buffer(_LINE), ctypes.c_size_t(), ctypes.c_uint32()

    @classmethod
    def load(cls, scenario: Union[str, bytes]) -> World:
        """Loads a scenario, a text in TOML. Refused, with the fault's line, if it is not accepted; MemoryError if memory runs out."""
        text, world = _bytes(scenario), cls()
        status = _calls().trade_load(text, len(text), world._at())
        if status == _LOADED:
            return world
        if status == _REFUSED:
            raise Refused(fault_of(text))
        raise MemoryError("host memory refused")

    def __enter__(self) -> World:
        return self

    def __exit__(self, *_: object) -> None:
        self.close()

    def __del__(self, _warn: Callable[..., None] = warnings.warn) -> None:
        # Python may run this on any thread, and in the child of a fork. A world is freed on its own thread of its own process alone.
        held = getattr(self, "_held", None)
        if held is not None and held.at:
            if self._thread is _here.mark and self._process == os.getpid():
                self.close()
            _warn(f"unclosed world {self!r}", ResourceWarning, source=self)

    def close(self) -> None:
        """Frees all that the world has. Afterwards it has no nodes and no leaves. To close it again does nothing."""
        _calls().trade_drop(self._at())

    def _at(self) -> Any:
        """The world as C takes it. RuntimeError on another thread than the one that loaded it."""
        if self._thread is not _here.mark:
            raise RuntimeError("a world stays on the thread that loaded it, and this is another thread")
        return ctypes.byref(self._held)

    @property
    def nodes(self) -> int:
        """The number of nodes, the root among them."""
        return _calls().trade_nodes(self._at())

    @property
    def leaves(self) -> int:
        """The number of leaves."""
        return _calls().trade_leaves(self._at())

    def leaf(self, name: Union[str, bytes]) -> int:
        """The number of the leaf of a name. KeyError if there is none."""
        text = _bytes(name)
        leaf = _calls().trade_leaf(self._at(), text, len(text))
        if leaf == _NONE:
            raise KeyError(name)
        return leaf

    def node(self, leaf: int) -> int:
        """The node of a leaf. IndexError if there is no such leaf."""
        node = _calls().trade_node(self._at(), _number(leaf, "leaf"))
        if node == _NONE:
            raise IndexError(f"no leaf {leaf}")
        return node

    def label(self, node: int) -> str:
        """The label of a node, as `init -> cli`. IndexError if there is no such node."""
        room = _TEXT
        while True:
            label = ctypes.create_string_buffer(room)
            if not _calls().trade_label(self._at(), _number(node, "node"), label, room, ctypes.byref(self._written)):
                raise IndexError(f"no node {node}")
            if self._written.value <= room:
                return label.raw[: self._written.value].decode()
            room = self._written.value

    def account(self, node: int) -> Account:
        """The account of a node. IndexError if there is no such node."""
        read = _Account()
        if not _calls().trade_read_account(self._at(), _number(node, "node"), ctypes.byref(read)):
            raise IndexError(f"no node {node}")
        phase = None if read.phase == _NONE else Phase(read.phase)
        return Account(read.quota, read.used, read.caps, read.taken, read.steps, read.budget, phase)

    def budget(self, leaf: int) -> Budget:
        """The verified bounds of a leaf. IndexError if there is no such leaf."""
        read = _Budget()
        if not _calls().trade_read_budget(self._at(), _number(leaf, "leaf"), ctypes.byref(read)):
            raise IndexError(f"no leaf {leaf}")
        return Budget(read.own, read.own_caps, read.steps)

    def set_input(self, leaf: int, input: int, number: int) -> None:
        """Gives an input of a leaf another value, from here on. InputError if there is no such leaf or input, or if the number is too large for it."""
        if not self._has_numbers(leaf=leaf, input=input):
            raise InputError(f"leaf {leaf} has no input {input}")
        if not 0 <= _whole(number, "number") <= _NONE:
            raise InputError(f"{number} is not within the values of input {input} of leaf {leaf}")
        status = _calls().trade_set_input(self._at(), leaf, input, number)
        if status == _NO_INPUT:
            raise InputError(f"leaf {leaf} has no input {input}")
        if status == _TOO_LARGE:
            raise InputError(f"{number} is not within the values of input {input} of leaf {leaf}")

    def reaction(self, leaf: int, signal: int) -> Reaction:
        """The verified bounds of a signal of a leaf. SignalError if there is no such leaf or signal."""
        read = _Reaction()
        if not self._has_numbers(leaf=leaf, signal=signal) or not _calls().trade_read_reaction(self._at(), leaf, signal, ctypes.byref(read)):
            raise SignalError(f"leaf {leaf} has no signal {signal}")
        return Reaction(read.steps, read.all)

    def signal(self, leaf: int, signal: int) -> None:
        """Submits a signal to a leaf. It counts once until it is taken. SignalError if there is no such leaf or signal."""
        if not self._has_numbers(leaf=leaf, signal=signal) or _calls().trade_signal(self._at(), leaf, signal) != _SUBMITTED:
            raise SignalError(f"leaf {leaf} has no signal {signal}")

    def is_at_rest(self) -> bool:
        """Whether no leaf can take a turn."""
        return _calls().trade_at_rest(self._at())

    def turn(self, leaf: int) -> Turn:
        """One turn of a leaf. IndexError if there is no such leaf."""
        event = _calls().trade_turn(self._at(), _number(leaf, "leaf"), self._line, _LINE, ctypes.byref(self._written))
        if event == _NONE:
            raise IndexError(f"no leaf {leaf}")
        return Turn(Event(event), self._said(event))

    def turns(self, leaf: int, most: int) -> Turns:
        """Turns of a leaf, at most so many: until one gives a line or finishes, or the leaf can't take one. IndexError if there is no such leaf."""
        if not 0 <= _whole(most, "most") <= _NONE:
            raise ValueError(f"no number of turns: {most}")
        held, taken, written = self._at(), ctypes.byref(self._taken), ctypes.byref(self._written)
        event = _calls().trade_turns(held, _number(leaf, "leaf"), most, taken, self._line, _LINE, written)
        if event == _NONE:
            raise IndexError(f"no leaf {leaf}")
        return Turns(self._taken.value, Event(event), self._said(event))

    def run(self) -> Iterator[Tuple[int, str]]:
        """Turns of all leaves until the world is at rest: round by round in preorder, each as long as it can take one. Gives each line with its leaf.

        Between two lines inputs may be set and signals submitted. The turns go on when the next line is asked for.
        """
        leaf, taken, written = ctypes.c_uint32(0), ctypes.byref(self._taken), ctypes.byref(self._written)
        while True:
            event = _calls().trade_run(self._at(), _SOME_TURNS, ctypes.byref(leaf), taken, self._line, _LINE, written)
            if self._taken.value == 0:
                return
            line = self._said(event)
            if line is not None:
                yield leaf.value, line

    @staticmethod
    def _has_numbers(**values: int) -> bool:
        """Whether C can take these numbers. TypeError if one is no whole number."""
        return all(0 <= _whole(value, what) < _NONE for what, value in values.items())

    def _said(self, event: int) -> Optional[str]:
        """The text of the line that was given, if one was."""
        return self._line.raw[: self._written.value].decode() if event == Event.LINE else None
