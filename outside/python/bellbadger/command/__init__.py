"""The command for people, `bellbadger` or `python3 -m bellbadger`: rules in words, traces in files, answers as
lines and as an exit status.

All deciding is done by the proved functions. What stands here reads names and files and writes answers:

    words, wordpatterns    rules in words: the text format, with a place for every error
    rules                  a rule from a file, as words, as a rule file or as its hex digits
    traces                 traces from files of any length, in blocks
    judging                a trace followed in order, and asked of a board too
    said                   the answers in words and as JSON
    boards, trays          lists of calls; rows and columns
    drawing, record, page  pictures, the tin's record, and a page to look at
    output, cli            standard output, arguments, exit statuses

See docs/COMMAND.md.
"""
