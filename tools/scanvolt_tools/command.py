"""What each command of tools/ and bench/ calls."""
import importlib
import signal
import sys
from collections.abc import Callable


def run(name: str) -> None:
    """Runs the module with this name: its `main`, and its docstring as the help."""
    module = importlib.import_module("scanvolt_tools." + name)
    sys.exit(status(module.main, module.__doc__))


def status(main: Callable[[list[str]], int], text: str | None) -> int:
    """The status that `main` returns, which gets the words of the command line. `--help` only prints the text."""
    words = sys.argv[1:]
    if words[:1] in (["-h"], ["--help"]):
        signal.signal(signal.SIGPIPE, signal.SIG_DFL)  # whoever reads may have seen enough
        print((text or "").strip())
        return 0
    return main(words)
