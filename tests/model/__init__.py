"""A reference model of the MIPS bench, written from document 01 and the
requests of document 02 that have landed, with the line protocol.

Nothing here is shared with the bench: the model is slow, plain Python, and
serves only to say what each line of `replay` must be answered with.
"""
