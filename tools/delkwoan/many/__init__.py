"""Many markets on many machines: the command compress-many, over Dask, whose workers need not be trusted.

    delkwoan.many.trades     the trades and members that are given
    delkwoan.many.pieces     how they are cut into pieces that the program takes
    delkwoan.many.markets    the markets that pieces are put into, and their files
    delkwoan.many.verdicts   what two checks say of a proposal
    delkwoan.many.workers    the markets on their way to workers and back
    delkwoan.many.processes  what checks, and Dask's workers
    delkwoan.many.folder     the folder in which all is put away
    delkwoan.many.command    the command

It wants Debian's python3-scipy, python3-distributed and python3-cryptography, which nothing else of the package does.
"""
