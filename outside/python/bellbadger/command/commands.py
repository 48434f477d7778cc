"""The commands, one function each: what it is asked, what it writes, and its status."""

import os
import stat
import sys

from .. import compare as comparing
from .. import merge as merging
from .. import reduce as reducing
from .. import samples
from ..judge import Waiting
from ..refusals import Refused
from ..rules import CheckedRule
from . import bench as benching
from . import boards, drawing, judging, page, rules, said, trays
from . import record as records
from .errors import Failed, called, listed

# every trace was judged yes; some were no; anything else
YES, NO, OTHER = 0, 1, 2


def status_of(is_yes):
    return YES if is_yes else NO


def _once(paths):
    """Sees to it that standard input is there where a file is called -, and that it and every other pipe are read
    once: the second time nothing would come, and that is a trace without events."""
    if "-" in paths and sys.stdin is None:
        raise Failed("standard input is closed")
    if "-" in paths and not os.get_blocking(sys.stdin.fileno()):
        # where nothing has come yet it would look as if nothing came any more
        raise Failed("standard input is set not to wait for what comes (O_NONBLOCK): put cat | before it")
    pipes = [_pipe(path) for path in paths]
    for path, pipe in zip(paths, pipes):
        if pipe is not None and pipes.count(pipe) > 1:
            raise Failed(f"{'standard input' if path == '-' else called(path)} can be read once")


def _pipe(path):
    """What a pipe or a terminal is told by, whatever it is called; None of a file that can be read again."""
    again = "-" if path == "-" else None
    try:
        status = os.fstat(sys.stdin.fileno()) if path == "-" else os.stat(path)
    except (OSError, ValueError):
        return again
    kinds = stat.S_ISFIFO, stat.S_ISSOCK, stat.S_ISCHR
    return (status.st_dev, status.st_ino) if any(kind(status.st_mode) for kind in kinds) else again


def load_all(paths):
    """Rules from files."""
    _once(paths)
    return [rules.load(path) for path in paths]


def _traces(arguments):
    """The files of each trace."""
    _once([arguments.rule, *arguments.traces])
    return [arguments.traces] if arguments.chunks else [[path] for path in arguments.traces]


def judge(arguments, output):
    traces, named = _traces(arguments), rules.load(arguments.rule)
    return max(_judge_one(named, paths, arguments, output) for paths in traces)


def _judge_one(named, paths, arguments, output):
    try:
        judged = judging.judge(named, paths, arguments.binary, output.progress)
    except Failed as failed:
        return _not_judged(paths, failed, arguments, output)
    if arguments.json:
        output.line(said.as_json(named, paths, judged))
    else:
        output.line(said.line(named, paths, judged), said.YES if judged.is_yes else said.NO)
    return status_of(judged.is_yes)


def _not_judged(paths, failed, arguments, output):
    if output.quiet:
        output.complain(said.error_line(paths, failed))
    elif arguments.json:
        output.line(said.error_as_json(paths, failed))
    else:
        output.line(said.error_line(paths, failed), said.ERROR)
    return OTHER


def board(arguments, output):
    _once([arguments.rule, arguments.list])
    verdict = boards.run(rules.load(arguments.rule), arguments.list, output)
    return OTHER if isinstance(verdict, Waiting) else status_of(verdict.is_yes)


def tray(arguments, output):
    _once([arguments.row, arguments.column, *arguments.bands])
    row, column = load_all([arguments.row, arguments.column])
    answer = trays.Judged(row, column, arguments.bands, arguments.width).answer()
    word = said.YES if answer.is_yes else said.NO
    if arguments.json:
        output.line(said.tray_as_json(arguments.bands, answer))
    else:
        output.line(answer.line(), word)
    return status_of(answer.is_yes)


def show(arguments, output):
    for named in load_all(arguments.rules):
        output.text(named.words())
        for line in _facts(named):
            output.text(f"# {line}\n")
    return YES


def _facts(named):
    arcs = sum(bin(mask).count("1") for mask in named.rule.targets)
    yield f"{_many(named.rule.n, 'state')}, {_many(arcs, 'arc')}, {_many(named.rule.k, 'event')}"
    judge_of = named.judge()
    if judge_of is None:
        yield "over 512 sets: it can be followed, and no board takes it"
    else:
        loaded = judge_of.install(named.rule)
        yield f"{_many(loaded.sets, 'set')}, {_many(loaded.starts, 'start')}"
    yield from (f"{word}: {text}" for word, text in _samples(named))


def _many(number, unit):
    return f"{number} {unit}{'' if number == 1 else 's'}"


def _samples(named):
    """The first trace that the rule accepts, and the first that it rejects; where that is empty, the next too."""
    for word, wish in (("accepts", samples.ACCEPTED), ("rejects", samples.REJECTED)):
        try:
            text = samples.sample(wish, named.rule)
        except Refused as refused:
            yield word, f"not known ({refused})"
            continue
        yield word, "no trace at all" if text is None else _named_text(named, text)
        if text == b"" and wish == samples.ACCEPTED:
            yield from _longer_sample(named)


def _named_text(named, text):
    return " ".join(named.events[symbol] for symbol in text) or "the empty trace"


def _longer_sample(named):
    """The first accepted trace that has events: what the rule and the rule of all traces but the empty one accept."""
    k = named.rule.k
    some = CheckedRule(2, k, 1, 2, [2 if cell < 32 and cell % 16 < k else 0 for cell in range(512)])
    try:
        text = samples.sample(samples.ACCEPTED, merging.merge_reduced(merging.BOTH, named.rule, some))
    except Refused:
        return
    if text is not None:
        yield "accepts", _named_text(named, text)


def draw(arguments, output):
    named = load_all([arguments.rule])[0]
    picture = drawing.svg(named) if arguments.svg else drawing.dot(named)
    if picture is None:
        raise Failed("Graphviz's dot is not there: without --svg its words are written")
    output.text(picture)
    return YES


def sample(arguments, output):
    for named in load_all(arguments.rules):
        if arguments.accepted or arguments.rejected:
            output.text(_sample_trace(named, arguments.accepted))
        else:
            for word, text in _samples(named):
                output.text(f"{word}: {text}\n")
    return YES


def _sample_trace(named, accepted):
    try:
        text = samples.sample(samples.ACCEPTED if accepted else samples.REJECTED, named.rule)
    except Refused as refused:
        raise Failed(str(refused), called(named.name)) from None
    if text is None:
        raise Failed(f"the rule {'accepts' if accepted else 'rejects'} no trace at all", called(named.name))
    return "".join(named.events[symbol] + "\n" for symbol in text)


def _put(named, arguments, output):
    if arguments.hex:
        output.text(named.file.hex().upper() + "\n")
    elif arguments.file:
        output.bytes(named.file)
    else:
        output.text(named.words())


def merge(arguments, output):
    both = load_all(arguments.rules)
    if len(both) < 2:
        raise Failed("merging takes two rules or more")
    events, result = rules.common_events(both), both[0].rule
    way = {"both": merging.BOTH, "either": merging.EITHER, "interleaving": merging.INTERLEAVING}[arguments.way]
    function = merging.merge if arguments.pairs else merging.merge_reduced
    for other in both[1:]:
        try:
            result = function(way, result, other.rule)
        except Refused as refused:
            raise Failed(str(refused), called(other.name)) from None
    named = any(each.named for each in both)
    _put(rules.from_rule("merged", result, events, named), arguments, output)
    return YES


def compare(arguments, output):
    one, two = load_all([arguments.one, arguments.two])
    events = rules.common_events([one, two])
    try:
        found = comparing.compare(one.rule, two.rule)
    except Refused as refused:
        raise Failed(str(refused)) from None
    if found.is_same:
        output.line("the same: both accept the same traces")
        return YES
    alone = one if isinstance(found, comparing.FirstAlone) else two
    text = " ".join(events[symbol] for symbol in found.text) or "the empty trace"
    output.line(f"different: only {called(alone.name)} accepts: {text}")
    return NO


def reduce(arguments, output):
    named = load_all([arguments.rule])[0]
    try:
        reduced = reducing.reduce(named.rule)
    except Refused as refused:
        raise Failed(str(refused), called(named.name)) from None
    if not reduced.installs:
        raise Failed("reduced it has over 512 sets, and no board takes it: keep it as it is", called(named.name))
    _put(rules.from_rule(named.name, reduced.rule, named.events, named.named), arguments, output)
    return YES


def record(arguments, output):
    traces, named = _traces(arguments), rules.load(arguments.rule)
    if "-" in arguments.traces:
        raise Failed("a record names the file of its trace: standard input has none")
    starts = [_record_start(paths, arguments) for paths in traces]
    twice = next((start for start in starts if starts.count(start) > 1), None)
    if twice is not None:
        raise Failed("two traces would have this record", called(twice + ".json"))
    return max(_record_one(named, paths, start, arguments, output) for paths, start in zip(traces, starts))


def _record_start(paths, arguments):
    """The record's name without its end: beside the trace, or in the folder that is named."""
    folder = os.path.dirname(paths[0]) if arguments.into is None else arguments.into
    return os.path.normpath(os.path.join(folder, os.path.basename(paths[0]) + ".record"))


def _record_one(named, paths, start, arguments, output):
    try:
        judged = judging.judge(named, paths, arguments.binary, output.progress)
        written = _write_record(named, judged, start, arguments)
    except Failed as failed:
        return _not_judged(paths, failed, arguments, output)
    if arguments.json:
        output.line(said.as_json(named, paths, judged))
    else:
        output.line(said.line(named, paths, judged), said.YES if judged.is_yes else said.NO)
        output.line(f"  recorded in {listed(map(called, written), 'and')}")
    return status_of(judged.is_yes)


def _write_record(named, judged, start, arguments):
    made = records.made(named, judged, arguments.binary, os.path.dirname(start) or ".")
    texts = {start + ".json": records.text_of(made)}
    if arguments.html:
        texts[start + ".html"] = page.made(named, judged, made)
    if not arguments.replace:
        records.expect_none(texts)
    for path, text in texts.items():
        records.write(path, text)
    return list(texts)


def verify(arguments, output):
    name = called(arguments.record)
    rule = [] if arguments.rule is None else [arguments.rule]
    _once([arguments.record, *arguments.traces, *rule])
    meant = load_all(rule)
    judged, difference = records.again(arguments.record, arguments.traces, meant, output.progress)
    if difference:
        field, recorded, found = difference
        raise Failed(f"{field} differs: {recorded} is recorded, and it is {found}", name)
    word = said.YES if judged.is_yes else said.NO
    if arguments.json:
        output.line(said.record_as_json(arguments.record, judged))
    else:
        output.line(f"{name}: {word}, as recorded", word)
    return status_of(judged.is_yes)


def bench(arguments, output):
    named = load_all([arguments.rule])[0]
    if arguments.trace == "-" or _pipe(arguments.trace) is not None:
        raise Failed(f"a trace is read more than once here: {called(arguments.trace)} cannot be")
    judged, lines = benching.measure(named, arguments.trace, arguments.binary, output.progress)
    for line in lines:
        output.line(line)
    output.line(said.line(named, [arguments.trace], judged), said.YES if judged.is_yes else said.NO)
    return status_of(judged.is_yes)
