"""Whether each clause has an edit, each edit a clause, and the documents the counts. An edit is a wrong body, crates/*/must-fail/*.edit."""
import os
import re
from collections.abc import Iterator
from typing import NamedTuple

from ..repository import Repository
from .rattle import Crates

Key = tuple[str, str, str]  # a crate, a function, and a clause
# The wrong bodies that are known by their name.
NAMED = set(
    """always_no_room always_out_of_memory any_abbreviation_fits bool_of_two_is_read clear_raises_the_summary
 clear_resets_enables conditions_once_per_event end_of_empty_write_ignored event_copies_condition
 fault_drops_earlier_records filter_at_reading full_queue_drops_oldest input_wait_is_in_seconds
 interrupted_response_is_read locked_out_poll_clears_request log_kept_at_run_time
 newest_waiting_goes_first node_counted_short nothing_is_sent opening_state_for_ever
 optional_node_forgotten poll_leaves_request refused_link_uses_a_lid reset_completes_operation
 response_wait_counts_from_arrival second_reason_requests_again stands_for_nothing
 summary_compared_before_the_own_act summary_untold_where_nothing_is_touched unterminated_text_stays""".split()
)
# Clauses that have no edit, as 'CRATE FUNCTION CLAUSE'. The reasons: a function that lends or gives a value has no other value of
# that type; nothing that may be done to a response adds work; and the journal that keeps nothing says nothing of what it was told.
WITHOUT = set(
    """sv_layers Layers::exchange value,sv_layers Layers::exchange stands,sv_layers Layers::errors ensures,
sv_layers Layers::scanner value,sv_layers Layers::scanner stands,sv_layers Layers::respond measure,
sv_serve Driver::wire ensures,sv_serve Driver::server ensures,sv_serve Driver::journal ensures,
sv_serve Driver::into_journal ensures,sv_serve Journal::note ensures,sv_serve Journal::flush ensures,
sv_recording Recorder::wire ensures,sv_recording Tape::writer ensures,
sv_instrument Instrument::layers ensures""".replace(
        ",\n", ","
    ).split(
        ","
    )
)
MOST = 90  # lines of README.md


class Clauses(NamedTuple):
    """The clauses of exported functions, in their order, and how many more are those of laws."""

    keys: list[Key]
    laws: int


def clauses(repository: Repository) -> Clauses:
    """The clauses of all crates."""
    crates = Crates(repository)
    # A program, and what only tests use, have no edits.
    found = [
        (name, *one)
        for name in sorted(crates)
        if name != "failing_alloc"
        for one in crates.clauses(name)
    ]
    keys = [(name, function, clause) for name, function, clause, is_law in found if not is_law]
    return Clauses(keys, len(found) - len(keys))


def edits(repository: Repository) -> list[str]:
    """The edits, as seen from crates/."""
    return [name[len("crates/") :] for name in repository.names("crates/*/must-fail/*.edit")]


def turned(text: str) -> list[list[str]]:
    """The words of an edit's lines 'turns:': a function and its clauses."""
    return [line.split() for line in re.findall(r"^turns: (.*)", text, flags=re.M)]


def faults(repository: Repository, known: Clauses) -> Iterator[str]:
    """Faults of edits: of their lines 'turns:' and names, of the clauses that they name or leave out, and of the text that they replace."""
    turns: list[tuple[Key, str]] = []
    names = edits(repository)
    for edit in names:
        crate, name = edit.split("/")[0], os.path.basename(edit)[: -len(".edit")]
        said = turned(repository.text("crates/" + edit))
        turns += [((crate, words[0], clause), edit) for words in said for clause in words[1:]]
        function = said[0][0] if said and said[0] else ""
        if name in NAMED:
            continue
        if not function:
            yield f"{edit}: it has no line 'turns:'"
        if not name.startswith(function.rpartition("::")[2] + "_"):
            yield f"{edit}: its name doesn't begin with a function's"
    there = set(known.keys)
    for key, edit in turns:
        if key not in there:
            yield f"{edit}: there is no clause {key[1]} {key[2]}"
    met = {key for key, _ in turns}
    for key in dict.fromkeys(known.keys):
        if key not in met and " ".join(key) not in WITHOUT:
            yield f"{' '.join(key)}: no edit turns this clause"
    for edit in names:
        yield from misplaced(repository, edit)


def misplaced(repository: Repository, edit: str) -> Iterator[str]:
    """Texts that an edit replaces, and that don't occur once in its file."""
    source = ""
    for line in repository.text("crates/" + edit).splitlines():
        kind, _, text = line.partition(": ")
        if kind == "file":
            source = repository.text(f"crates/{edit.split('/')[0]}/{text}")
        if kind == "old" and source.count(text) != 1:
            yield f"{edit}: not once in its file: {text.strip()}"


def miscounted(repository: Repository, known: Clauses) -> Iterator[str]:
    """Counts of clauses and edits in the documents that aren't the counted ones; and a README.md that is too long."""
    names = edits(repository)
    counts: dict[str, int] = {
        "clauses": len(known.keys),
        "without a mutant": sum(" ".join(key) in WITHOUT for key in known.keys),
        "of laws": known.laws,
        "mutants": len(names),
        "without turns:": sum(not turned(repository.text("crates/" + edit)) for edit in names),
    }
    readme = repository.text("README.md")
    if f"rejects all {len(names)} mutants." not in readme:
        yield f"README.md: there are {len(names)} mutants"
    row = f"\n| {' | '.join(map(str, counts.values()))} |"
    if row not in "\n" + repository.text("docs/EVIDENCE.md"):
        yield "docs/EVIDENCE.md: there are " + ", ".join(
            f"{count} {what}" for what, count in counts.items()
        )
    if readme.count("\n") > MOST:
        yield f"README.md: above {MOST} lines"
