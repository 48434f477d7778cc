"""Arguments and exit statuses."""

import argparse
import sys

from .. import _library
from . import commands
from .errors import Failed, reason
from .output import Output

_ABOUT = """Judges valve traces by a rule. Rules are in words, rule files, or their hex digits; traces are files of
event names. Every verdict is that of proved functions.

Exit status: 0 where every trace was judged yes, 1 where some were no, 2 for anything else."""


class _Parser(argparse.ArgumentParser):
    def __init__(self, **words):
        super().__init__(allow_abbrev=False, formatter_class=argparse.RawDescriptionHelpFormatter, **words)

    def _print_message(self, message, file=None):
        # argparse would drop an error here, and help that was not written would have the status 0
        if file is None:
            raise Failed("there is nowhere to write to")
        file.write(message)


def _parser():
    more = "bellbadger COMMAND --help tells more, with an example."
    parser = _Parser(prog="bellbadger", description=_ABOUT, epilog=more)
    parser.add_argument("--version", action="store_true", help="the library's version")
    subcommands = parser.add_subparsers(dest="command", metavar="COMMAND")
    for name, add, about, example in _COMMANDS:
        first = about.split("\n")[0]
        command = subcommands.add_parser(name, help=first, description=about, epilog=f"example:\n\n  {example}")
        command.set_defaults(run=getattr(commands, name))
        add(command)
    return parser


def _add_rule(parser):
    parser.add_argument("rule", metavar="RULE", help="a rule: words, rule file or hex digits; - for standard input")


def _add_traces(parser):
    _add_rule(parser)
    parser.add_argument("traces", metavar="TRACE", nargs="+", help="traces; - for standard input")
    parser.add_argument("--chunks", action="store_true", help="the files are one trace, one behind the other")
    _add_trace_form(parser)
    _add_json(parser)
    _add_quiet(parser)


def _add_trace_form(parser):
    parser.add_argument("--binary", action="store_true", help="a byte for each event, 255 for an idle mark")


def _add_json(parser):
    parser.add_argument("--json", action="store_true", help="one JSON object for each answer")


def _add_quiet(parser):
    parser.add_argument("--quiet", action="store_true", help="only the status; errors on standard error")


def _add_board(parser):
    _add_rule(parser)
    about = "the calls; without it standard input, line by line"
    parser.add_argument("list", metavar="LIST", nargs="?", default="-", help=about)
    _add_quiet(parser)


def _add_tray(parser):
    parser.add_argument("row", metavar="ROWRULE", help="the rule of the rows")
    parser.add_argument("column", metavar="COLUMNRULE", help="the rule of the columns")
    parser.add_argument("bands", metavar="BAND", nargs="+", help="the bands in order, a line for each row")
    about = "the number of events in a row, where there may be no row"
    parser.add_argument("--width", type=int, metavar="W", help=about)
    _add_json(parser)
    _add_quiet(parser)


def _add_rules(parser):
    parser.add_argument("rules", metavar="RULE", nargs="+", help="rules: words, rule files or hex digits")


def _add_draw(parser):
    _add_rule(parser)
    parser.add_argument("--svg", action="store_true", help="the picture, by Graphviz's dot")


def _add_sample(parser):
    _add_rules(parser)
    which = parser.add_mutually_exclusive_group()
    which.add_argument("--accepted", action="store_true", help="the first accepted trace alone, as a trace")
    which.add_argument("--rejected", action="store_true", help="the first rejected trace alone, as a trace")


def _add_form(parser):
    form = parser.add_mutually_exclusive_group()
    form.add_argument("--hex", action="store_true", help="the rule file's hex digits, and no words")
    form.add_argument("--file", action="store_true", help="the rule file, and no words")


def _add_merge(parser):
    _add_rules(parser)
    ways = ("both", "either", "interleaving")
    about = "which traces the result accepts; both, if it is not said"
    parser.add_argument("--way", choices=ways, default="both", help=about)
    parser.add_argument("--pairs", action="store_true", help="every pair of states, and none reduced")
    _add_form(parser)


def _add_compare(parser):
    parser.add_argument("one", metavar="RULE", help="a rule")
    parser.add_argument("two", metavar="RULE", help="another")
    _add_quiet(parser)


def _add_reduce(parser):
    _add_rule(parser)
    _add_form(parser)


def _add_record(parser):
    _add_traces(parser)
    parser.add_argument("--html", action="store_true", help="a page to look at, too")
    parser.add_argument("--into", metavar="FOLDER", help="where records go; else beside the trace")
    parser.add_argument("--replace", action="store_true", help="a record that is there is written anew")


def _add_verify(parser):
    parser.add_argument("record", metavar="RECORD", help="a record (JSON)")
    parser.add_argument("traces", metavar="TRACE", nargs="*", help="the trace's files, if not those that it names")
    parser.add_argument("--rule", metavar="RULE", help="the rule that is meant: the record has to have the same")
    _add_json(parser)
    _add_quiet(parser)


def _add_bench(parser):
    _add_rule(parser)
    parser.add_argument("trace", metavar="TRACE", help="a trace")
    _add_trace_form(parser)
    _add_quiet(parser)


_COMMANDS = (
    (
        "judge",
        _add_traces,
        """says of each trace whether it keeps to the rule

A line for each trace: FILE: yes; FILE:LINE: no, with the event and what could have come;
FILE:LINE: error, where it is no trace.""",
        "bellbadger judge purge.txt good.txt bad.txt",
    ),
    (
        "board",
        _add_board,
        """runs a list of calls: chunks that come out of order

Lines are: open N; deliver PLACE REVISION EVENT.. (- for none, @FILE for those of a file);
withdraw PLACE; verdict. It stops at the first bad line. The status is that of the verdict at
the end.""",
        "printf 'open 1\\ndeliver 0 0 red purge\\nverdict\\n' | bellbadger board purge.txt",
    ),
    (
        "show",
        _add_rules,
        "shows what was understood: states, arcs, sets, starts, samples",
        "bellbadger show purge.txt",
    ),
    (
        "draw",
        _add_draw,
        "draws the rule for Graphviz",
        "bellbadger draw --svg purge.txt > purge.svg",
    ),
    (
        "sample",
        _add_sample,
        "the first trace that the rule accepts, and the first that it rejects",
        "bellbadger sample purge.txt",
    ),
    (
        "merge",
        _add_merge,
        """makes one rule of several

The result accepts what both accept, what either accepts, or the interleavings.""",
        "bellbadger merge --way both purge.txt short.txt > merged.txt",
    ),
    (
        "compare",
        _add_compare,
        """whether two rules accept the same traces

The status is 0 where they do, and 1 where they do not; the first trace that tells is shown.""",
        "bellbadger compare old.txt new.txt",
    ),
    (
        "reduce",
        _add_reduce,
        "the same rule without unreachable, dead and alike states",
        "bellbadger reduce purge.txt > small.txt",
    ),
    (
        "tray",
        _add_tray,
        """judges rows by one rule and columns by another

Each file is a band of at most 64 rows, a line for each; there are at most 8.""",
        "bellbadger tray row.txt column.txt band0.txt band1.txt",
    ),
    (
        "record",
        _add_record,
        """judges traces, and writes a record of each

It is TRACE.record.json, and with --html TRACE.record.html, beside the trace.""",
        "bellbadger record --html purge.txt good.txt",
    ),
    (
        "verify",
        _add_verify,
        "judges the trace of a record again, and names the first field that differs",
        "bellbadger verify good.txt.record.json",
    ),
    (
        "bench",
        _add_bench,
        "how fast a trace is judged",
        "bellbadger bench purge.txt good.txt",
    ),
)


def _run(words, output):
    parser = _parser()
    arguments = parser.parse_args(words)
    if arguments.version and arguments.command is not None:
        raise Failed("--version stands alone: the command was not run")
    if arguments.version:
        output.text("bellbadger {}.{}\n".format(*_library.version()))
        return commands.YES
    if arguments.command is None:
        parser.print_usage(sys.stderr)
        raise Failed("a command is missing; --help tells which there are")
    output.quiet = getattr(arguments, "quiet", False)
    return arguments.run(arguments, output)


def main(words=None):
    """Runs a command: its status. Whatever goes wrong is 2."""
    output = Output()
    status = _guarded(output, lambda: _run(words, output))
    return max(status, _guarded(output, lambda: output.flush() or 0))


def _guarded(output, work):
    try:
        return work()
    except SystemExit as ended:
        # argparse has said what is wrong, or helped
        return 0 if ended.code in (0, None) else commands.OTHER
    except Failed as failed:
        output.complain(f"{'' if failed.name is not None else 'bellbadger: '}{failed}")
    except OSError as error:
        output.complain(f"bellbadger: {reason(error)}")
    except KeyboardInterrupt:
        output.complain("bellbadger: interrupted")
    except BaseException as error:  # pylint: disable=broad-except
        output.complain(f"bellbadger: internal error: {type(error).__name__}: {error}")
    return commands.OTHER
