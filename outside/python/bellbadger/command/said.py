"""The answers to a trace, in words and as JSON."""

import json

from .errors import called, listed

YES, NO, ERROR = "yes", "no", "error"


def title(paths):
    """What a trace is called on its line: its file, or how many chunks it has."""
    return called(paths[0]) if len(paths) == 1 else f"trace of {len(paths)} chunks"


def awaited(named, judged):
    """red, blue or the end: what could have come."""
    names = [named.events[symbol] for symbol in judged.expected] + (["the end"] if judged.could_end else [])
    return listed(names)


def reason_of(named, judged):
    """Why a trace is not accepted, or None."""
    if judged.is_yes:
        return None
    if judged.lost is None:
        return f"the trace ends too early; expected {awaited(named, judged)}"
    if judged.lost.place is None:
        return "the rule accepts no trace at all"
    return f"{named.events[judged.lost.symbol]} cannot come here; expected {awaited(named, judged)}"


def _nothing(judged):
    """Where a trace, or a chunk of it, has no events: a recording that failed looks like that."""
    if judged.events == 0:
        return " (the trace has no events)"
    return without([file.path for file in judged.files if file.events == 0], "events")


def without(paths, what):
    """(a has no rows), (a and 2 more have no rows); nothing where there is none."""
    if not paths:
        return ""
    more = f" and {len(paths) - 1} more have" if len(paths) > 1 else " has"
    return f" ({called(paths[0])}{more} no {what})"


def line(named, paths, judged):
    """The line for a trace: FILE: yes, FILE:LINE: no: .."""
    if judged.is_yes:
        return f"{title(paths)}: yes{_nothing(judged)}"
    lost = judged.lost
    place = lost.place.shown() if lost and lost.place else title(paths)
    return f"{place}: no: {reason_of(named, judged)}"


def error_line(paths, failed):
    """The line for a trace that was not judged."""
    place = failed.place() if failed.name is not None else title(paths)
    return f"{place}: error: {failed.message}"


def place_fields(place):
    """A place as JSON has it: what is known of it."""
    fields = {"file": place.name, "line": place.line, "column": place.column, "byte": place.byte}
    return {key: value for key, value in fields.items() if value is not None}


def where(named, judged):
    """The place of a no as JSON has it: where the trace is lost, or its end; None of a yes."""
    if judged.is_yes:
        return None
    lost, found = judged.lost, {}
    if lost and lost.place:
        place = lost.place
        found = place_fields(place)
        found.update(number=lost.number, event=named.events[lost.symbol])
    expected = [named.events[symbol] for symbol in judged.expected]
    return {"lost": lost is not None, **found, "expected": expected, "could_end": judged.could_end}


def counts(judged):
    """The board's count of transitions and its number of events; the first is None where no board takes the rule."""
    return {"count": None if judged.counted is None else judged.counted.count, "bytes": judged.events}


def as_json(named, paths, judged):
    """One object for a trace that was judged."""
    verdict = YES if judged.is_yes else NO
    answer = {"trace": list(paths) if len(paths) > 1 else paths[0], "verdict": verdict, **counts(judged)}
    if not judged.is_yes:
        answer.update(reason=reason_of(named, judged), where=where(named, judged))
    return json.dumps(answer)


def error_as_json(paths, failed):
    """One object for a trace that was not judged."""
    answer = {"trace": list(paths) if len(paths) > 1 else paths[0], "verdict": ERROR, "reason": failed.message}
    answer.update(place_fields(failed))
    return json.dumps(answer)


def tray_as_json(bands, answer):
    """The object for a tray that was judged."""
    if answer.is_yes:
        return json.dumps({"bands": bands, "verdict": YES})
    where_ = place_fields(answer.place) if answer.place else {}
    return json.dumps({"bands": bands, "verdict": NO, "reason": answer.reason, **where_})


def record_as_json(path, judged):
    """The object for a record that is right."""
    return json.dumps({"record": path, "verdict": YES if judged.is_yes else NO, "as_recorded": True})
