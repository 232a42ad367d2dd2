"""Makes one interchange file of what other Smalltalks file out: the package of tools/convert.

    command       the command line
    sources       files, places in them, and what is reported of them
    tools         the tools that file out, and by what a file shows its tool and format
    program       what was read: classes, methods, code, names
    bangs         files of chunks: Pharo, Squeak, Cuis, VisualWorks, Dolphin, GNU Smalltalk's older syntax
    brackets      GNU Smalltalk's brackets, and scripts
    tonel         Tonel files
    filetree      FileTree and Cypress folders
    interchange_files   interchange files, also such as `stx` doesn't read
    definitions   statements that define classes or speak of them
    code          bodies of methods: what is rewritten, and what is refused
    names         what names stand for
    checks        the program as a whole: superclasses, double definitions, what is built in
    additions     methods that keep the meaning of the tool
    writing       the interchange file
"""
