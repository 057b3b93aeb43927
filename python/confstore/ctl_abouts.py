"""The abouts that confstorectl gives the changes of its words: who makes them, when and why."""

from __future__ import annotations

from .abouts import BY, WHEN, WHY, NotAbout, check, filled, from_environment, joined, keeps_abouts, pair_of, with_about
from .ctl_faults import Fault, shown
from .ctl_words import NO_BY, NO_WHEN, NOTE, UNDO

TYPE_CHECKING = False
if TYPE_CHECKING:
    from .abouts import Given
    from .ctl_asked import Asked
    from .ctl_places import Place
    from .ctl_sockets import Command


def about_of(asked: Asked, place: Place | None) -> dict[str, str]:
    """The about of what a word changes: empty where nobody asks for one, and the store does not keep them, as far as
    this is known. A server that has another store than FOLDER adds what its store keeps. Raises a `Fault`."""
    if NOTE not in asked.word.options:
        return {}
    is_kept = (place is None or place.folder is not None) and keeps_abouts(asked.folder)
    try:
        given = given_in(asked)
        if given is None and not is_kept:
            return {}
        if asked.word is UNDO:
            given = joined({WHY: f"undo of {asked.arguments['N']}"}, given)
        return filled(joined(given, _left_out(asked)), is_kept)
    except NotAbout as fault:
        raise fault_of(fault) from None


def given_in(asked: Asked) -> Given | None:
    """What the environment and the words give for an about, or None where that is nothing. Raises `NotAbout`."""
    given = dict(map(pair_of, asked.abouts)) if asked.abouts else None
    both = joined(from_environment(), given)
    if both is not None:
        check({key: text for key, text in both.items() if text is not None})
    return both


def _left_out(asked: Asked) -> Given:
    """The keys that are not to be filled in."""
    return {key: None for key, option in ((BY, NO_BY), (WHEN, NO_WHEN)) if asked.has(option)}


def fault_of(fault: NotAbout) -> Fault:
    """The fault of what is no about."""
    return Fault(fault.name, shown(fault.why))


def noted(asked: Asked, place: Place | None, command: Command) -> Command:
    """A command with the about of a word, if it has one. Raises a `Fault`."""
    return with_about(command, about_of(asked, place))
