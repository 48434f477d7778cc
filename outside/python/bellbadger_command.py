"""The console command. It stands beside the package, since importing that fails where the library is not there: the status
is then 2, and not Python's 1, which says that a trace was judged no."""

import sys


def console():
    """Runs the command: its status."""
    try:
        from bellbadger.command.cli import main

        return main()
    except KeyboardInterrupt:
        return _failed("interrupted")
    except Exception as error:  # pylint: disable=broad-except
        return _failed(error)


def _failed(why):
    try:
        sys.stderr.write(f"bellbadger: {why}\n")
    except (AttributeError, OSError):
        # there is no standard error, or no room for more: the status is 2 all the same
        pass
    return 2
