"""Delkwoan from Python: a second checker, a client, a journal's auditor and reader, and the figures of a compression.

    delkwoan.session      a session with the program or with a service
    delkwoan.replies      its answers as values
    delkwoan.checker      the second checker of proposals, which shares nothing with the rest
    delkwoan.changes      the changes that a journal keeps, as values
    delkwoan.frames       a journal's file, with slots or without
    delkwoan.bases        how its bytes spell a base
    delkwoan.records      how they spell changes
    delkwoan.history      a journal's history, made again without the program
    delkwoan.compressions a compression's figures from its files
"""

__version__ = "0.1"
"""The one place that says which version this is."""
