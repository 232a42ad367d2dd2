"""What tools/check-convert checks. Each module has `checks`: what is checked, and what is wrong or None.

    examples    the files of examples/fileouts: what they become is read, prints what is kept, converts to itself
    rewrites    small texts, and what they become
    reports     small texts, and what is refused or warned of, with its places
    running     runs the converter and the program
"""
