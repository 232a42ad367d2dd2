"""Puts a program and what it needs of the library into one file.

    needs      what a text names: messages, names and literals
    library    the units of the folder lib, by what they are for
    choosing   which of them a program takes
    writing    the one file
    command    the words of tools/link
"""
