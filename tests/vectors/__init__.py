"""Test vectors for `replay`: lines chosen for the edges of the documents, and
random lines beside them. A module of lines has `lines()`, its fixed vectors,
and `fresh(rng)`, one other random line of the same mix.
"""
