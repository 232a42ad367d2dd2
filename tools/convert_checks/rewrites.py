"""Small texts, and what they become. What is wanted is written by hand after docs/fileouts.md."""
from __future__ import annotations

from collections.abc import Iterator

from .running import convert_text, run

# what is shown, the tool, a statement, what it becomes
STATEMENTS = [
    ("an underscore assigns", "squeak", b"| x | x _ 3. x", b"| x | x := 3. x"),
    ("a name with an underscore stays", "pharo", b"| a_b | a_b := 3. a_b", b"| a_b | a_b := 3. a_b"),
    ("an empty brace", "pharo", b"{} size", b"(Array new: 0) size"),
    ("a brace", "pharo", b"{3. 4} size", b"((Array new: 2) at: 1 put: (3); at: 2 put: (4); yourself) size"),
    ("a brace in a brace", "pharo", b"{{3}}",
     b"((Array new: 1) at: 1 put: (((Array new: 1) at: 1 put: (3); yourself)); yourself)"),
    ("a byte array", "pharo", b"#[1 255] size",
     b"((ByteArray new: 2) at: 1 put: 1; at: 2 put: 255; yourself) size"),
    ("exponents", "pharo", b"1e3 + 2r1e4 + 16rFF", b"1000 + 16 + 16rFF"),
    ("a sign behind the radix", "vw", b"16r-1F + 3", b"-16r1F + 3"),
    ("groups of digits", "gst", b"1_000_000 + 3", b"1000000 + 3"),
    ("two number signs", "gst", b"##foo size", b"#foo size"),
    ("empty statements", "pharo", b"3 abs.. . 4 abs", b"3 abs.  4 abs"),
    ("temporaries in the middle", "gst", b"| a | a := 3. | b | b := a. b abs", b"| a b | a := 3.  b := a. b abs"),
    ("the Transcript shows what isn't a String", "pharo", b"Transcript show: 3 + 4; cr; show: 'x'; show: #y",
     b"Transcript show: (3 + 4) displayString; cr; show: 'x'; show: #y"),
    ("the Transcript shows what plainly is one", "pharo", b"Transcript show: 3 printString, 'x'",
     b"Transcript show: 3 printString, 'x'"),
    ("display: and print:", "gst", b"Transcript display: 3; print: 'x'; cr",
     b"Transcript show: 3 displayString; show: 'x' printString; cr"),
    ("a global that is put in place", "gst", b"Smalltalk at: #X put: 3 + 4", b"X := 3 + 4"),
    ("a global within an expression", "gst", b"(Smalltalk at: #X put: 3) abs. (Smalltalk at: #X) abs. Smalltalk.X abs",
     b"((X := 3)) abs. (X) abs. X abs"),
    ("another system's name of a class", "pharo", b"3 isKindOf: SmallInteger", b"3 isKindOf: Integer"),
    ("a carriage return behind a dollar sign stays", "squeak", b"$\r codePoint\r+ 3", b"$\r codePoint\n+ 3"),
    ("a blank behind a dollar sign stays", "squeak", b"#(3) size: $ ", b"#(3) size: $ "),
    ("bars and blocks", "pharo", b"[:x | | y | y := x. y] value: 3. [:x || y | y := x] value: 4. [:x|] value: 5",
     b"[:x | | y | y := x. y] value: 3. [:x || y | y := x] value: 4. [:x|] value: 5"),
]

# what is shown, the words, a file, what of the file that it becomes must stand in it
FILES = [
    ("names are trimmed and divided at white space", ["--from=vw"],
     b"Object subclass: #A instanceVariableNames: ' x\r\ty ' classVariableNames: '' "
     b"poolDictionaries: '' category: ''!",
     b"Class named: 'A' superclass: 'Object' indexedInstanceVariables: #none\n"
     b"\tinstanceVariableNames: 'x y' classVariableNames: '' sharedPools: ''\n"
     b"\tclassInstanceVariableNames: ''!\n"),
    ("a superclass is sorted to the front", [], b"B subclass: #C! Object subclass: #B!",
     b"\tclassInstanceVariableNames: ''!\n\nClass named: 'C' superclass: 'B'"),
    ("a kind of bytes", [], b"Object variableByteSubclass: #A instanceVariableNames: '' classVariableNames: '' "
     b"poolDictionaries: '' category: ''!", b"indexedInstanceVariables: #byte"),
    ("new sends initialize where the tool does", ["--from=pharo"],
     b"Object subclass: #A!\n!A methodsFor: 'x'!\ninitialize\n\tsuper initialize! !",
     b"Object classMethod!\nnew\n\t^super new initialize! !"),
    ("an exception's class makes its instances itself", ["--from=pharo"],
     b"Error subclass: #A!\n!A methodsFor: 'x'!\ninitialize\n\tsuper initialize! !",
     b"A classMethod!\nnew\n\t^super new initialize! !"),
    ("printString is by printOn:", ["--from=pharo"],
     b"Object subclass: #A!\n!A methodsFor: 'x'!\nprintOn: s\n\ts nextPutAll: 'x'! !",
     b"A method!\nprintString\n\t^String streamContents: [:aStream | self printOn: aStream]! !"),
    ("a bang is doubled", [], b"Object subclass: #A!\n!A methodsFor: 'x'!\nfoo\n\t^'a!!b'! !",
     b"A method!\nfoo\n\t^'a!!b'! !\nAnnotation key: 'category' value: 'x'!\n"),
    ("of two methods the last one counts", [], b"Object subclass: #A!\n!A methodsFor: 'x'!\nfoo\n\t^3!\nfoo\n\t^4! !",
     b"A method!\nfoo\n\t^4! !"),
    ("a pool", [], b"Object subclass: #A instanceVariableNames: '' classVariableNames: '' poolDictionaries: 'P' "
     b"category: ''! Smalltalk at: #P put: Dictionary new! P at: #X put: 3! !A methodsFor: 'x'!\nx\n\t^X! !",
     b"Pool named: 'P'!\nP variable: 'X'!\nP initializerFor: 'X'!\n3! !"),
    ("the category of a pragma", ["--from=gst"], b"Object subclass: A [ foo [ <category: 'c'> ^3 ] ]",
     b"! !\nAnnotation key: 'category' value: 'c'!\n"),
    ("class variables in brackets", ["--from=gst"], b"Object subclass: A [ X := 3 + 4. Y := nil. foo [ ^X ] ]",
     b"A initializer!\nX := 3 + 4.! !"),
    ("a class side in brackets", ["--from=gst"], b"Object subclass: A [ A class [ | n | ] ]",
     b"classInstanceVariableNames: 'n'!"),
    ("loading a Tonel file sends initialize", [],
     b"Class { #name : #A, #superclass : #Object }\n\n{ #category : #x }\nA class >> initialize [\n\t^3\n]",
     b"A initializer!\nself initialize! !"),
    ("of a file of chunks the file itself sends it", [],
     b"Object subclass: #A!\n!A class methodsFor: 'x'!\ninitialize\n\t^3! !\nA initialize!",
     b"Global initializer!\nA initialize! !"),
    ("temporaries that last to the end of the file", ["--from=gst"], b"| a | a := 3! a abs!",
     b"Global variable: 'a'!"),
    ("each statement by itself", ["--from=gst", "--each"], b"3 foo! 4 abs!",
     b"Global initializer!\n[3 foo]\n\ton: Error\n\tdo: [:error | Transcript show: error class name; show: ': '; "
     b"show: error messageText displayString; cr]! !\n"),
    ("a comment", [], b"'From Squeak5.3 of today'!\nObject subclass: #A!", b"\"From Squeak5.3 of today\"!\n"),
]


def checks(command: list[str]) -> Iterator[tuple[str, str | None]]:
    """One check for each text."""
    for what, tool, statement, wanted in STATEMENTS:
        found = convert_text(statement.replace(b"!", b"!!"), ["--from=" + tool, "--no-link"])
        yield what, wrong_of(command, found.out, squeezed(b"\nGlobal initializer!\n%s! !\n" % wanted), found.report)
    for what, words, text, wanted in FILES:
        found = convert_text(text, [*words, "--no-link"])
        yield what, wrong_of(None, found.out, squeezed(wanted), found.report)


def squeezed(text: bytes) -> bytes:
    """Without blanks that don't matter here: several in a row, and one before a semicolon or period."""
    while b"  " in text:
        text = text.replace(b"  ", b" ")
    return text.replace(b" ;", b";").replace(b" .", b".")


def wrong_of(command: list[str] | None, out: bytes, wanted: bytes, report: str) -> str | None:
    """What is wrong with what a text became, or None. Where there is a command it must read it."""
    if wanted not in squeezed(out):
        return "%r isn't in %s%s" % (wanted.decode("latin-1"), out.decode("latin-1"), report)
    checked = run(command, "check", out) if command else b"ok "
    return None if checked.startswith(b"ok ") else checked.decode("latin-1")
