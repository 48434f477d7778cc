"""Judges a trace by all processors of one machine: futures.py RULE COUNT CHUNK .., with the number of chunks that the
trace has, and files whose names end with the digits of their chunk's number, from 0 on, in any order.

Prints the verdict, and ends with status 0 exactly where it is yes. Where nothing is printed there is no verdict: a
chunk was refused, one is missing, a file is not there, a process was killed.
"""

import functools
import itertools
import sys
from concurrent.futures import ProcessPoolExecutor
from pathlib import Path

sys.path.insert(0, str(Path(__file__).resolve().parents[1]))  # where bellbadger is

from bellbadger import Judge
from bellbadger.summaries import combine
from numbered import counted, numbered


@functools.lru_cache
def judge_by(rule):
    """The judge of a process."""
    judge = Judge()
    judge.load(Path(rule).read_bytes())
    return judge


def summarize(rule, number, chunk):
    """What a process does: the summary of the chunk with that number."""
    return judge_by(rule).summarize(number, Path(chunk).read_bytes())


def main(rule, count, *files):
    count, chunks = counted(count), numbered(files)
    with ProcessPoolExecutor() as processes:
        # in order, whichever is ready first
        summaries = processes.map(summarize, itertools.repeat(rule), *zip(*chunks), chunksize=16)
        whole = functools.reduce(combine, summaries)
    verdict = judge_by(rule).conclude(whole, count)
    print(verdict)
    return 0 if verdict.is_yes else 1


if __name__ == "__main__":
    if len(sys.argv) < 4:
        sys.exit(__doc__)
    sys.exit(main(*sys.argv[1:]))
