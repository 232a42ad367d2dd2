"""Reads interchange files and Smalltalk method bodies, for the tools of this folder.

    places     texts that remember where they stand in a file; lines and columns
    chunks     a file as texts that end with a bang
    tokens     a text as tokens
    bodies     tokens as the tree of a method or a body (class Parser)
    elements   a file as the units that it declares
    builtins   the classes and messages that every program has

All texts are bytes and all offsets count bytes from 0. Nothing here ends in an exception because of its input: what
is wrong is a Fault with a place.
"""
