"""Judges a trace by the processes of Open MPI: mpirun -n PROCESSES python3 mpi.py RULE COUNT CHUNK .., with the number of
chunks that the trace has, and files whose names end with the digits of their chunk's number, from 0 on, in any order,
at least one for each process. Needs mpi4py (Debian's python3-mpi4py).

Each process summarizes chunks that follow one another; the summaries are combined by MPI's reduce, in the order of the
processes, since the operation is said not to commute. Prints the verdict, and ends with status 0 exactly where it is
yes. Where nothing is printed there is no verdict.
"""

import functools
import sys
from pathlib import Path

sys.path.insert(0, str(Path(__file__).resolve().parents[1]))  # where bellbadger is

from mpi4py import MPI

from bellbadger import Judge
from bellbadger.summaries import Summary, combine
from numbered import counted, numbered

SIZE = 169


def combine_bytes(earlier, later, datatype):
    """Summaries as bytes; the result stands where the later ones stood."""
    for at in range(0, len(later), SIZE):
        part = slice(at, at + SIZE)
        later[part] = combine(Summary.from_bytes(earlier[part]), Summary.from_bytes(later[part])).to_bytes()


def main(rule, count, *files):
    count, chunks = counted(count), numbered(files)
    all_processes = MPI.COMM_WORLD
    process, processes = all_processes.rank, all_processes.size
    if len(chunks) < processes:
        sys.exit("fewer chunks than processes")
    judge = Judge()
    judge.load(Path(rule).read_bytes())
    mine = chunks[len(chunks) * process // processes : len(chunks) * (process + 1) // processes]
    own = functools.reduce(combine, (judge.summarize(number, Path(file).read_bytes()) for number, file in mine))
    whole = bytearray(SIZE)
    summary_type = MPI.BYTE.Create_contiguous(SIZE).Commit()
    in_order = MPI.Op.Create(combine_bytes, commute=False)
    all_processes.Reduce([own.to_bytes(), 1, summary_type], [whole, 1, summary_type], op=in_order)
    if process != 0:
        return 0
    verdict = judge.conclude(Summary.from_bytes(whole), count)
    print(verdict)
    return 0 if verdict.is_yes else 1


if __name__ == "__main__":
    if len(sys.argv) < 4:
        sys.exit(__doc__)
    try:
        status = main(*sys.argv[1:])
    except Exception as error:
        # the others would wait for this process
        print(error, file=sys.stderr, flush=True)
        MPI.COMM_WORLD.Abort(2)
    sys.exit(status)
