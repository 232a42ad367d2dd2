"""Runs the tests of Smalltalk files.

    programs   the program that runs the tests of a file
    runs       runs of it, and what became of each test
    reports    what is shown: text, TAP, JUnit's XML
    command    the words of tools/test
"""
