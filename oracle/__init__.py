"""What the programs must answer and store, worked out without them, by docs/ and sudo_logsrv.proto(5) alone.

    wire        varints, fields and frames
    messages    the messages of a client and of a server
    records     the records of a session, and their lines of timing
    lines       heads, exits and event lines as JSON
    journals    the names of a store's files, and the entries of journals
    store       a store's files: journals, logs, numbers
    reader      the logs of a store that may be in use, record by record, for the scripts of contrib/
    options     the options of these scripts
    alone       such a script with what it uses of this package, as one file
    sudo        the layout of sudo's own server
    connection  a client's connection to a server
    waits       how long is waited for something, and what is then said of a server
    rows        the cases of a program of rows, and what must be printed of them

Nothing here shares code with the programs, or is derived from their output. Scripts of interop/
and bench/ find the package by `import at_root`, and the rows.py of crates by the path that tools/rows sets.
"""
