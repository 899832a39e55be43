"""pictures [--check] [TOP] : draws docs/pictures/*.svg from what the sources and the documents say.

- status-model: registers, standard events, queues and the status byte. The names come from the table of docs/INSTRUMENT.md. The
  numbers of bits, and what sums up what, come from the definitions of sv_layers, sv_scan and sv_errors.
- trigger-states: the states of sv_scan, and which of its acts lead from one to another, computed from its definitions; the words
  come from the table of docs/INSTRUMENT.md.
- way-of-a-call: the table of docs/ARCHITECTURE.md, checked with crates.txt, with the first sentence of each crate.
- suspended-call: what calls wait for, by sv_links; how a wait ends, by sv_history; the words come from docs/INSTRUMENT.md.

If a document and a source differ, or words have no room, it prints that and doesn't draw the picture. With --check it writes
nothing, and prints each picture that isn't what it would draw. TOP is a repository; without it, the tool's own.
Status: 0, or 1 if something is printed.
"""
import os
import traceback
from collections.abc import Callable

from ..repository import Repository
from .drawing import status_model, suspended_call, trigger_states, way_of_a_call
from .drawing.canvas import Fault
from .drawing.sources import Sources
from .writing import printed, settled

FOLDER = "docs/pictures/"
OTHERS = (
    "explained-hang.svg",
    "panel.png",
)  # of the program's output: tools/explain-picture and tools/panel-picture draw them
PICTURES: dict[str, Callable[[Sources], str]] = {
    "status-model.svg": status_model.draw,
    "suspended-call.svg": suspended_call.draw,
    "trigger-states.svg": trigger_states.draw,
    "way-of-a-call.svg": way_of_a_call.draw,
}


def drawn(name: str, sources: Sources, check: bool) -> list[str]:
    """Draws a picture, or compares it. Returns what is wrong, if anything is."""
    try:
        picture = PICTURES[name](sources)
    except Fault as fault:
        return [str(fault)]
    except (AttributeError, IndexError, KeyError, StopIteration, ValueError) as fault:
        place = traceback.extract_tb(fault.__traceback__)[-1]
        where = f"{os.path.basename(place.filename)}:{place.lineno}"
        return [f"{FOLDER}{name}: what it is drawn from can't be read, at {where}: {fault!r}"]
    return settled(sources.repository, FOLDER + name, picture, check, "tools/pictures draws")


def faults(repository: Repository, check: bool) -> list[str]:
    """Draws all pictures, or compares them. Returns what is wrong."""
    sources = Sources(repository)
    found = [line for name in PICTURES for line in drawn(name, sources, check)]
    others = {os.path.basename(name) for name in repository.names(FOLDER + "*")} - {
        *PICTURES,
        *OTHERS,
    }
    return found + [
        f"{FOLDER + name}: tools/pictures draws no such picture" for name in sorted(others)
    ]


def main(words: list[str]) -> int:
    check = words[:1] == ["--check"]
    return printed(faults(Repository(*words[check:][:1]), check))
