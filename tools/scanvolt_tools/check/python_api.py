"""python-api [--check] : writes python/API.md, the public names of the Python package, from their docstrings.

Public are the names in a module's `__all__`, or else its functions and classes without an underscore in front; of classes, the
methods and properties likewise, also those that a class of the package hands down. Fixtures are read from the source of the
plugin, which needs pytest. Each name needs a docstring.
With --check it writes nothing, and prints a line if the file isn't what it would write.
Status: 0, or 1 if something is printed.
"""
import ast
import importlib
import inspect
import re
import textwrap
import types
from collections.abc import Iterable, Iterator
from typing import Any

from ..repository import Repository
from .writing import printed, settled

TARGET = "python/API.md"
MODULES = (
    "scanvolt.virtual",
    "scanvolt.faults",
    "scanvolt.explaining.explanation",
    "scanvolt.vxi11",
    "scanvolt.vxi11.calls",
    "scanvolt.aio",
    "scanvolt.program",
    "scanvolt.live",
    "pyvisa_scanvolt",
)
PLUGIN, FIXTURE = (
    "python/scanvolt/pytest_plugin.py",
    "scanvolt.visa_fixture",
)  # the fixtures, and what one of them is
PACKAGES = ("scanvolt", "pyvisa_scanvolt")
WIDTH = 120
HEAD = """<!-- Written by tools/python-api from the docstrings; change those and run it. -->
# Names of the Python package

What [README](README.md) shows, name by name. Signatures leave out types, which an editor, `pydoc` or mypy shows. A name that
isn't here may change in any release.

"""


class Lacking(Exception):
    """A public name has no docstring."""


def docstring(what: Any, name: str) -> str:
    """The docstring, without indentation."""
    text = inspect.getdoc(what)
    if not text:
        raise Lacking(f"{name}: it has no docstring")
    return text


def paragraphs(text: str, indent: str = "") -> Iterator[str]:
    """A docstring as Markdown, in lines: prose is wrapped, and what is indented becomes a block of code."""
    for part in re.split(r"\n\s*\n", text.strip("\n")):
        if part.startswith("    "):
            yield from [
                indent + "```python",
                *textwrap.indent(textwrap.dedent(part), indent).splitlines(),
                indent + "```",
                "",
            ]
        else:
            yield from [
                *textwrap.wrap(
                    " ".join(part.split()),
                    WIDTH,
                    initial_indent=indent,
                    subsequent_indent=indent,
                    break_long_words=False,
                    break_on_hyphens=False,
                ),
                "",
            ]


def signature(what: Any, name: str) -> str:
    """How it is called, without types."""
    try:
        found = inspect.signature(what)
    except (TypeError, ValueError):
        return name
    given = [
        one.replace(annotation=inspect.Parameter.empty)
        for one in found.parameters.values()
        if one.name != "self"
    ]
    return name + str(found.replace(parameters=given, return_annotation=inspect.Signature.empty))


def is_own(what: Any) -> bool:
    """Whether the package defines it."""
    return getattr(what, "__module__", "").split(".")[0] in PACKAGES


def public(module: types.ModuleType) -> list[str]:
    """The public names of a module, in their order."""
    names = getattr(module, "__all__", None)
    if names is not None:
        return list(names)
    return [
        name
        for name, one in vars(module).items()
        if not name.startswith("_")
        and (inspect.isfunction(one) or inspect.isclass(one))
        and one.__module__ == module.__name__
    ]


def members(kind: type) -> Iterator[tuple[str, Any]]:
    """The public methods and properties of a class, its own first: name and what it is."""
    found: dict[str, Any] = {}
    for one in kind.__mro__:
        if is_own(one):
            for name, member in vars(one).items():
                if not name.startswith("_") and name not in found:
                    found[name] = (
                        member.__func__
                        if isinstance(member, (classmethod, staticmethod))
                        else member
                    )
    for name, member in found.items():
        if inspect.isfunction(member) or isinstance(member, property):
            yield name, member


def of_class(kind: type, name: str) -> Iterator[str]:
    """The lines about a class."""
    is_raised = issubclass(kind, Exception)
    yield from [f"### {name}", ""]
    if not is_raised:
        yield from [f"`{signature(kind, name)}`", ""]
    yield from paragraphs(docstring(kind, name))
    listed = list(members(kind))
    for member, what in listed:
        shown = member if isinstance(what, property) else signature(what, member)
        first, *rest = docstring(what, f"{name}.{member}").split("\n\n")
        yield from item(shown, first, rest)
    if listed:
        yield ""


def item(shown: str, first: str, rest: Iterable[str] = ()) -> Iterator[str]:
    """The lines of an entry of a list."""
    text = f"- `{shown}`: {' '.join(first.split())}"
    yield from textwrap.wrap(
        text, WIDTH, subsequent_indent="  ", break_long_words=False, break_on_hyphens=False
    )
    for part in rest:
        yield ""
        yield from list(paragraphs(part, "  "))[:-1]


def of_module(name: str, told: list[type]) -> Iterator[str]:
    """The lines about a module: what it has, functions and constants, and then classes, unless they were told before."""
    module = importlib.import_module(name)
    yield from [f"## {name}", "", *paragraphs(docstring(module, name))]
    entries = [(one, getattr(module, one)) for one in public(module)]
    for one, what in entries:
        if inspect.isfunction(what):
            first, *rest = docstring(what, f"{name}.{one}").split("\n\n")
            yield from item(signature(what, one), first, rest)
    constants = [f"`{one}` = {what!r}" for one, what in entries if isinstance(what, (int, str))]
    if constants:
        yield from textwrap.wrap(
            "- Constants: " + ", ".join(constants), WIDTH, subsequent_indent="  "
        )
    if constants or any(inspect.isfunction(what) for _, what in entries):
        yield ""
    for one, what in entries:
        if inspect.isclass(what) and what not in told:
            told.append(what)
            yield from of_class(what, one)


def of_plugin(repository: Repository) -> Iterator[str]:
    """The lines about the fixtures, and about what `visa_meter` is."""
    tree = ast.parse(repository.text(PLUGIN))
    yield from ["## Fixtures of pytest", "", *paragraphs(ast.get_docstring(tree) or "")]
    for one in tree.body:
        if isinstance(one, ast.FunctionDef) and any(
            ast.unparse(mark) == "pytest.fixture" for mark in one.decorator_list
        ):
            text = ast.get_docstring(one)
            if not text:
                raise Lacking(f"{one.name}: it has no docstring")
            yield from item(one.name, text)
    yield ""
    yield from of_class(importlib.import_module(FIXTURE).VisaMeter, "VisaMeter")


def written(repository: Repository) -> str:
    """The text of the page."""
    told: list[type] = []
    lines = [line for name in MODULES for line in of_module(name, told)]
    return HEAD + "\n".join([*lines, *of_plugin(repository)]).rstrip("\n") + "\n"


def main(words: list[str]) -> int:
    repository = Repository()
    try:
        text = written(repository)
    except Lacking as fault:
        return printed([str(fault)])
    return printed(
        settled(repository, TARGET, text, words == ["--check"], "tools/python-api writes")
    )
