"""Small texts, and what is refused or warned of. Places are counted by hand."""
from __future__ import annotations

from collections.abc import Iterator

from .running import convert_text

# what is refused, the words, a file, the lines of the report
REFUSED = [
    ("a float", [], b"Transcript show: 3.14!", ["F.st:1:18: a float"]),
    ("a negative exponent", [], b"3 + 1e-3!", ["F.st:1:5: a float"]),
    ("a scaled decimal", [], b"\n3.14s2 printNl!", ["F.st:2:1: a scaled decimal"]),
    ("an integer that is too large", [], b"3 + 16rFFFFFFFFFFFFFFFFFFFFFFFFFFFFFFFFF!",
     ["F.st:1:5: an integer past 2^127"]),
    ("all are told", [], b"3.14 abs!\n\r\n2.5 abs! 1.5 abs!",
     ["F.st:1:1: a float", "F.st:3:1: a float", "F.st:3:10: a float"]),
    ("the context", [], b"thisContext yourself!", ["F.st:1:1: thisContext isn't here"]),
    ("two messages behind a semicolon", ["--from=pharo"], b"3 abs; negated abs!",
     ["F.st:1:16: only one message may stand behind `;`"]),
    ("a name in a method that nothing declares", [], b"Object subclass: #A!\n!A methodsFor: 'x'!\nfoo\n\t^Bar! !",
     ["F.st:4:3: Bar is declared nowhere"]),
    ("an assignment to a parameter", [], b"Object subclass: #A!\n!A methodsFor: 'x'!\nfoo: x\n\tx := 3! !",
     ["F.st:4:2: nothing can be assigned to x"]),
    ("a method that is built in", [], b"!Integer methodsFor: 'x'!\nmax: x\n\t^x! !",
     ["F.st:2:1: Integer>>max: is built in and can't be replaced"]),
    ("a method of no class", [], b"!Foo methodsFor: 'x'!\nbar\n\t^3! !", ["F.st:2:1: Foo is defined nowhere"]),
    ("a class that is built in", [], b"Object subclass: #Set!", ["F.st:1:18: Set is built in"]),
    ("a subclass of a collection", [], b"OrderedCollection subclass: #A!",
     ["F.st:1:29: there are no subclasses of OrderedCollection here"]),
    ("an unknown superclass", [], b"Foo subclass: #A!", ["F.st:1:15: the superclass Foo is defined nowhere"]),
    ("classes in a circle", [], b"A subclass: #B! B subclass: #A!", ["F.st:1:13: B is its own superclass"]),
    ("words for elements", [], b"Object variableWordSubclass: #A instanceVariableNames: '' classVariableNames: '' "
     b"poolDictionaries: '' category: ''!", ["F.st:1:8: variableWordSubclass: makes a kind of class that isn't here"]),
    ("a slot that is no plain name", [], b"Object << #A slots: { #x => WeakSlot }; package: 'P'!",
     ["F.st:1:23: #x => WeakSlot is no name of a variable here"]),
    ("traits", [], b"Trait { #name : #T }", ["F.st:1:1: traits aren't here"]),
    ("a class with traits", [], b"Class { #name : #A, #superclass : #Object, #traits : 'T' }",
     ["F.st:1:54: traits aren't here"]),
    ("an inherited name again", [], b"Object subclass: #A instanceVariableNames: 'x' classVariableNames: '' "
     b"poolDictionaries: '' category: ''!\nA subclass: #B instanceVariableNames: 'x' classVariableNames: '' "
     b"poolDictionaries: '' category: ''!", ["F.st:2:13: x of B is there twice"]),
    ("a pool that nothing declares", [], b"Object subclass: #A instanceVariableNames: '' classVariableNames: '' "
     b"poolDictionaries: 'P' category: ''!", ["F.st:1:18: the pool P is declared nowhere"]),
    ("a pool as an object", [], b"Object subclass: #A instanceVariableNames: '' classVariableNames: '' "
     b"poolDictionaries: 'P' category: ''!\nSmalltalk at: #P put: Dictionary new!\nP keys!",
     ["F.st:3:1: P is a pool, and no object here"]),
    ("a primitive", ["--from=squeak"], b"Object subclass: #A!\n!A methodsFor: 'x'!\nfoo\n\t<primitive: 60>\n\t^3! !",
     ["F.st:4:2: a primitive isn't here"]),
    ("a binding", ["--from=vw"], b"#{Core.Foo} value!", ["F.st:1:1: a literal binding isn't here"]),
    ("a namespace", ["--from=gst"], b"Own.Foo new!", ["F.st:1:1: a namespace isn't here"]),
    ("a period isn't a namespace elsewhere", ["--from=pharo"], b"Own.Foo abs!",
     ["F.st:1:1: warning: Own is declared nowhere, and becomes a global variable",
      "F.st:1:5: warning: Foo is declared nowhere, and becomes a global variable"]),
    ("a character of two bytes", [], b"$\xc3\xa9 yourself!", ["F.st:1:1: a character beyond one byte"]),
    ("a name beyond ASCII", [], b"| caf\xc3\xa9 |!", ["F.st:1:6: a name beyond ASCII"]),
    ("columns count doubled bangs twice", ["--from=pharo"], b"'a!!b' , 3.5!", ["F.st:1:10: a float"]),
    ("a bracket that is never closed", [], b"Object subclass: A [ foo [ ^3 ]",
     ["F.st:1:20: this bracket is never closed"]),
    ("an import", [], b"Object subclass: A [ <import: X> ]", ["F.st:1:23: an import isn't here"]),
    ("variables of a built-in class", [], b"Integer extend [ | x | ]",
     ["F.st:1:20: Integer isn't of these files, and gets no further variables"]),
    ("XML", [], b"<?xml version='1.0'?>\n<st-source/>", ["F.st:1:1: VisualWorks' XML isn't read: file out as chunks"]),
    ("StepTalk", [], b"[|\n main\n 3\n!\n]", ["F.st:1:1: StepTalk's files aren't read"]),
    ("an element that is none", [], b"Smalltalk interchangeVersion: '1.0'!\nFoo bar: 3!",
     ["F.st:2:5: this is no element, or this can't stand in it"]),
    ("an unfinished text", [], b"Smalltalk interchangeVersion: '1.0'!\nGlobal initializer!\n3 abs",
     ["F.st:3:6: the last text has no bang behind it"]),
    ("a file that is too deep", [], b"(" * 201 + b"3" + b")" * 201 + b" abs!",
     ["F.st:1:201: more than 200 brackets are open"]),
]

# what is warned of, the words, a file, the lines of the report
WARNED = [
    ("a message that nothing answers", ["--from=gst"], b"3 sqrtt. 4 sqrtt!",
     ["F.st:1:3: warning: #sqrtt is sent, and no class here has it"]),
    ("initialize of an unknown tool", [], b"Object subclass: #A!\n!A methodsFor: 'x'!\ninitialize\n\t^3! !",
     ["F.st:3:1: warning: whether `new` sends `initialize` depends on the tool: say --from or --initialize"]),
    ("initialize that nothing sends", ["--from=gst"], b"Object subclass: A [ initialize [ ^3 ] ]",
     ["F.st:1:22: warning: `new` doesn't send `initialize` up to version 3.2.5: say --initialize=yes for later ones"]),
    ("a class that is there again", [], b"Object subclass: #A! Object subclass: #A!",
     ["F.st:1:39: warning: A is defined again, and only this counts"]),
    ("a carriage return", ["--from=pharo"], b"Character cr foo: 3!",
     ["F.st:1:11: warning: Character cr is byte 13 here, and shows no line end",
      "F.st:1:14: warning: #foo: is sent, and no class here has it"]),
    ("collect: of a String", ["--from=pharo"], b"'abc' collect: [:x | x]!",
     ["F.st:1:7: warning: collect: of a String answers an Array here"]),
    ("a superclass for which Object stands in", [], b"Model subclass: #A!",
     ["F.st:1:17: warning: Object stands in for Model"]),
    ("another name of a class", ["--from=pharo"], b"Number name!", ["F.st:1:1: warning: Number is Integer here"]),
    ("a pragma", ["--from=pharo"], b"Object subclass: #A!\n!A methodsFor: 'x'!\nfoo\n\t<gtExample>\n\t^3! !",
     ["F.st:4:2: warning: <gtExample> is dropped"]),
    ("a method that is taken out", [],
     b"Object subclass: #A!\n!A methodsFor: 'x'!\nfoo\n\t^3! !\nA removeSelector: #foo!",
     ["F.st:5:3: warning: A>>foo is taken out"]),
    ("what loads other files", ["--from=gst"], b"FileStream fileIn: 'x.st'!",
     ["F.st:1:12: warning: FileStream loads nothing here"]),
]


def checks(command: list[str]) -> Iterator[tuple[str, str | None]]:
    """One check for each text. Where something is refused nothing is written."""
    for what, words, text, lines in REFUSED + WARNED:
        found = convert_text(text, [*words, "--no-link"])
        status = 1 if any(": warning: " not in line for line in lines) else 0
        yield what, wrong_of(found.report, lines, found.status, status, found.out)


def wrong_of(report: str, lines: list[str], status: int, wanted: int, out: bytes) -> str | None:
    """What is wrong with a report, or None."""
    if report.splitlines() != lines:
        return "reports %s" % report
    if status != wanted:
        return "status %d" % status
    return "something is written" if wanted == 1 and out else None
