"""Puts the program, its manual page, the editor files and the tools for people's files into place."""
import ast
import os
import shutil
from collections.abc import Iterator

from gate import sources

# tools that are installed where they are there, each as the command `stx-NAME`
TOOLS = ("where", "convert", "link", "test", "language-server", "draw-trace")
# what these read of the checkout beside their modules
DATA = ("docs", "lib", "crates/st_base/src/builtins.rt")
# the folder that stands for the checkout, below the prefix
FOLDER = os.path.join("lib", "stx")
# where Neovim and Vim look for their files, below the prefix
VIM_FOLDERS = ("share/nvim/site", "share/vim/vimfiles")
VIM_DETECTS = "autocmd BufNewFile,BufRead *.sif setfiletype sif\n"

PROGRAM_SCRIPT = """#!/bin/sh
exec "$(dirname "$(readlink -f "$0")")/../../bin/stx" "$@"
"""
# what tools/program is of a checkout
WHERE_SCRIPT = """#!/bin/sh
readlink -f "$(dirname "$(readlink -f "$0")")/../../../bin/stx"
"""
TOOL_SCRIPT = """#!/bin/sh
exec "$(dirname "$(readlink -f "$0")")/../lib/stx/tools/%s" "$@"
"""


def imported(path: str) -> Iterator[str]:
    """The first names of the modules that a Python file imports."""
    with open(path, encoding="utf-8") as file:
        tree = ast.parse(file.read())
    for node in ast.walk(tree):
        if isinstance(node, ast.Import):
            yield from (name.name.partition(".")[0] for name in node.names)
        elif isinstance(node, ast.ImportFrom) and node.module and not node.level:
            yield node.module.partition(".")[0]


def python_files(path: str) -> Iterator[str]:
    """A file that is Python's, or those of a package."""
    if os.path.isdir(path):
        for at, _, files in os.walk(path):
            yield from (os.path.join(at, name) for name in sorted(files) if name.endswith(".py"))
    elif path.endswith(".py") or b"python3" in sources.content(path).partition(b"\n")[0]:
        yield path


def modules_of(tools: str, name: str) -> set[str]:
    """The modules and packages of the folder of tools that a tool needs, by the names of their files and folders."""
    found: set[str] = set()
    left = [name]
    while left:
        for path in python_files(os.path.join(tools, left.pop())):
            needed = {entry for module in imported(path) for entry in (module, module + ".py")}
            new = {entry for entry in needed - found if is_module(tools, entry)}
            found |= new
            left += sorted(new)
    return found


def is_module(tools: str, entry: str) -> bool:
    """Whether an entry of the folder of tools is a module or a package."""
    path = os.path.join(tools, entry)
    return os.path.isfile(path) and entry.endswith(".py") or os.path.isfile(os.path.join(path, "__init__.py"))


class Prefix:
    """A folder that files are put into, as /usr/local is."""

    def __init__(self, folder: str) -> None:
        self.folder = folder
        self.put: list[str] = []

    def to(self, inside: str) -> str:
        """Where a file goes, whose folder is there then."""
        path = os.path.join(self.folder, inside)
        os.makedirs(os.path.dirname(path), exist_ok=True)
        self.put.append(inside)
        return path

    def copy(self, path: str, inside: str) -> None:
        """Copies a file or a folder; a file that is running or open keeps its old bytes there."""
        if os.path.isdir(path):
            ignored = shutil.ignore_patterns("__pycache__", "*.new")
            shutil.rmtree(os.path.join(self.folder, inside), ignore_errors=True)
            shutil.copytree(path, self.to(inside), ignore=ignored)
        else:
            to = self.to(inside)
            shutil.copy(path, to + ".new")
            os.replace(to + ".new", to)

    def write(self, text: str, inside: str, mode: int = 0o644) -> None:
        """Writes a file."""
        to = self.to(inside)
        with open(to + ".new", "w", encoding="utf-8") as file:
            file.write(text)
        os.chmod(to + ".new", mode)
        os.replace(to + ".new", to)


def install_tools(top: str, prefix: Prefix) -> None:
    """Installs the tools that are there with their modules, so that they find what they look for as in a checkout."""
    tools = os.path.join(top, "tools")
    found = [name for name in TOOLS if os.path.isfile(os.path.join(tools, name))]
    modules = {entry for name in found for entry in modules_of(tools, name)}
    for entry in sorted({*found, *modules}):
        prefix.copy(os.path.join(tools, entry), os.path.join(FOLDER, "tools", entry))
    for name in DATA:
        if os.path.exists(os.path.join(top, name)):
            prefix.copy(os.path.join(top, name), os.path.join(FOLDER, name))
    prefix.write(PROGRAM_SCRIPT, os.path.join(FOLDER, "stx"), 0o755)
    prefix.write(WHERE_SCRIPT, os.path.join(FOLDER, "tools", "program"), 0o755)
    for name in found:
        prefix.write(TOOL_SCRIPT % name, os.path.join("bin", "stx-" + name), 0o755)


def install_editors(top: str, prefix: Prefix) -> None:
    """Installs the editor files, those of Vim and Neovim where these look for them."""
    editors = os.path.join(top, "tools", "editors")
    if not os.path.isdir(editors):
        return
    prefix.copy(editors, os.path.join(FOLDER, "tools", "editors"))
    for folder in VIM_FOLDERS:
        prefix.copy(os.path.join(editors, "sif.vim"), os.path.join(folder, "syntax", "sif.vim"))
        prefix.write(VIM_DETECTS, os.path.join(folder, "ftdetect", "sif.vim"))
        compiler = os.path.join(editors, "vim", "compiler", "stx.vim")
        if os.path.isfile(compiler):
            prefix.copy(compiler, os.path.join(folder, "compiler", "stx.vim"))


def install(top: str, program: str, folder: str) -> list[str]:
    """Installs all below a folder, and gives what was put there."""
    prefix = Prefix(os.path.abspath(folder))
    prefix.copy(program, os.path.join("bin", sources.PROGRAM))
    prefix.copy(os.path.join(top, "docs", "stx.1"), os.path.join("share", "man", "man1", "stx.1"))
    install_tools(top, prefix)
    install_editors(top, prefix)
    return prefix.put
