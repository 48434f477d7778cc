"""The tin's record: what was judged of a trace, by which rule, and so that it can be judged again."""

import datetime
import json
import os

from .. import _library
from . import judging, words
from .errors import Failed, called, reason, shown
from .rules import NamedRule
from .said import NO, YES, counts, reason_of, where

FORMAT = "bellbadger record 1"
# what two records of one trace need not have in common
_FREE = ("time", "library")
_LONGEST = 1 << 22


def made(named, judged, binary, folder):
    """The record, as JSON has it; files are named as seen from the folder in which it will stand."""
    place = where(named, judged)
    if place and "file" in place:
        place["file"] = _seen(place["file"], folder)
    return {
        "format": FORMAT,
        "rule": _rule(named),
        "events": list(named.events),
        "trace": {"form": "binary" if binary else "text", "files": [_file(file, folder) for file in judged.files]},
        "verdict": YES if judged.is_yes else NO,
        **counts(judged),
        "reason": reason_of(named, judged),
        "where": place,
        "library": ".".join(map(str, _library.version())),
        "time": datetime.datetime.now(datetime.timezone.utc).isoformat(timespec="seconds"),
    }


def _rule(named):
    name = os.path.basename(named.name)
    return {"name": name, "words": named.words(), "file": named.file.hex(), "sha256": named.sha256}


def _file(file, folder):
    return {"name": _seen(file.path, folder), "sha256": file.sha256, "length": file.length}


def _seen(path, folder):
    """A file as seen from a folder; links to folders are followed, as the system does where it goes up from one."""
    parent, name = os.path.split(path)
    return os.path.normpath(os.path.join(os.path.relpath(os.path.realpath(parent), os.path.realpath(folder)), name))


def text_of(record):
    return json.dumps(record, indent=2, ensure_ascii=False) + "\n"


def expect_none(paths):
    """Sees to it that nothing is there yet."""
    for path in paths:
        if os.path.lexists(path):
            raise Failed("it is there already; --replace writes it anew", called(path))


def write(path, text):
    """Writes a file whole or not at all."""
    part = f"{path}.{os.getpid()}.part"
    try:
        with open(part, "w", encoding="utf-8", errors="surrogateescape") as file:
            file.write(text)
            file.flush()
            os.fsync(file.fileno())
        os.replace(part, path)
    except OSError as error:
        raise Failed(reason(error), called(path)) from None
    finally:
        _remove(part)


def _remove(path):
    """What is left of a file that was not written whole; nothing, where it was."""
    try:
        os.unlink(path)
    except OSError:
        pass


def load(path):
    """A record from its file, seen to have the fields of one."""
    name = called(path)
    try:
        with open(path, "rb") as file:
            data = file.read(_LONGEST + 1)
        text = data.decode("utf-8", "surrogateescape") if len(data) <= _LONGEST else "null"
        record = json.loads(text, object_pairs_hook=_each_once)
    except OSError as error:
        raise Failed(reason(error), name) from None
    except (ValueError, RecursionError):
        raise Failed("it is no JSON", name) from None
    if not _is_record(record):
        raise Failed("it is no record, or one of another version", name)
    return record


def _each_once(pairs):
    """A JSON object. A field that is there twice would be read in two ways, by us and by who looks at it."""
    fields = dict(pairs)
    if len(fields) != len(pairs):
        raise ValueError("a field is there twice")
    return fields


def _is_record(record):
    kinds = {"rule": dict, "events": list, "trace": dict, "verdict": str, "library": str, "time": str}
    if not isinstance(record, dict) or record.get("format") != FORMAT:
        return False
    if not all(isinstance(record.get(key), kind) for key, kind in kinds.items()):
        return False
    files = record["trace"].get("files")
    strings = [record["rule"].get("name"), record["rule"].get("words")]
    if not isinstance(files, list) or not files or not all(isinstance(each, dict) for each in files):
        return False
    return all(isinstance(each, str) for each in strings + [file.get("name") for file in files])


def rule_in(record, name):
    """The rule in a record, read from its words."""
    try:
        made_of = words.parse(record["rule"]["words"])
    except Failed as failed:
        raise Failed(f"rule.words:{failed.lines()}", name) from None
    return NamedRule(record["rule"]["name"], made_of.rule, made_of.events, made_of.states, True)


def again(path, traces, meant, progress):
    """What is judged anew of a record's trace, and the first field that differs, or None. traces: other files to
    judge instead of those that it names. meant: rules that its own has to be the same as."""
    record, folder = load(path), os.path.dirname(path) or "."
    named = rule_in(record, called(path))
    for rule in meant:
        _expect_same(named, rule, called(path))
    paths = traces or [os.path.join(folder, file["name"]) for file in record["trace"]["files"]]
    binary = record["trace"].get("form") == "binary"
    judged = judging.judge(named, paths, binary, progress)
    anew = made(named, judged, binary, folder)
    return judged, first_difference(_renamed(record, bool(traces)), _renamed(anew, bool(traces)))


def _expect_same(named, meant, name):
    if named.rule != meant.rule or (meant.named and named.events != meant.events):
        raise Failed(f"rule differs: it is not that of {called(meant.name)}", name)


def _renamed(record, other_files):
    """The record, without the names of files where others are judged instead of them."""
    if not other_files:
        return record
    copy = json.loads(json.dumps(record))
    for file in copy["trace"]["files"]:
        file.pop("name", None)
    if isinstance(copy.get("where"), dict):
        copy["where"].pop("file", None)
    return copy


def first_difference(one, two, field=""):
    """The first field in which two records differ, with both values; None where there is none."""
    if isinstance(one, dict) and isinstance(two, dict):
        keys = [key for key in two if field or key not in _FREE] + [key for key in one if key not in two]
        pairs = ((f"{field}.{key}" if field else key, one.get(key, _MISSING), two.get(key, _MISSING)) for key in keys)
    elif isinstance(one, list) and isinstance(two, list) and len(one) == len(two):
        pairs = ((f"{field}[{at}]", *both) for at, both in enumerate(zip(one, two)))
    else:
        return None if type(one) is type(two) and one == two else (field, _short(one), _short(two))
    return next(filter(None, (first_difference(*both, name) for name, *both in pairs)), None)


_MISSING = object()


def _short(value):
    return "nothing" if value is _MISSING else shown(json.dumps(value, ensure_ascii=False), 100)
