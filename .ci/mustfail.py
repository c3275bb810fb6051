"""What must-fail edits change: their files, and the functions of these.

The files are laid out as by `rt fmt`, which the gate requires: a function's body ends at the first line that is a
closing brace with the indent of the function's head.
"""
import collections
import functools
import importlib.machinery
import importlib.util
import os
import pathlib
import re
import shutil
import sys

HERE = pathlib.Path(__file__).resolve().parent
# The head of its impl or trait, or nothing; its name; the numbers of its head's line and its last line; where its
# comments, its body and the text after it begin; its text up to the body, without comments, and the whole.
Function = collections.namedtuple("Function", "owner name line last start begin end head text")
# A function's comments and attributes, its head up to the brace, and its body up to the closing one.
FUNCTION = re.compile(
    r"^(?P<indent> *)(?:(?:#|//).*\n(?P=indent))*"
    r'(?P<head>(?:pub(?:\([^)]*\))? )?(?:default |const |unsafe |extern "C" )*fn (?P<name>\w+)'
    r"(?:.* |.*\n(?:(?:(?P=indent)(?: |\)|where).*)?\n)*?(?P=indent)(?:\).* )?)\{)"
    r"(?P<body>(?:\n(?:.*\n)*?(?=(?P=indent)\}$))?)(?:(?P=indent))?\}$", re.M)
OWNER = re.compile(r"^(?:(?:impl|trait|pub trait)\b.*|\})$", re.M)


@functools.lru_cache(maxsize=None)
def kit():
    """The kit's command rt, as a module."""
    sys.dont_write_bytecode = True
    loader = importlib.machinery.SourceFileLoader("rt", os.path.realpath(shutil.which("rt") or sys.exit("the kit's command rt is not on the PATH")))
    made = importlib.util.module_from_spec(importlib.util.spec_from_loader("rt", loader))
    loader.exec_module(made)
    return made


@functools.lru_cache(maxsize=None)
def functions(text):
    """The functions of a source file that have a body; one within another's body belongs to that body's text."""
    found = []
    for it in FUNCTION.finditer(text):
        # The nearest line above that begins or ends an impl or a trait.
        owner = (OWNER.findall(text, 0, it.start()) or [""])[-1] if it["indent"] else ""
        said = "\n".join(line for line in text[it.start() : it.end("head")].split("\n") if not line.lstrip().startswith("//"))
        first, last = (text.count("\n", 0, at) + 1 for at in (it.start("head"), it.end()))
        found.append(Function(owner.strip("}"), it["name"], first, last, it.start(), *it.span("body"), said, it[0]))
    return found


def without(text, begin="start"):
    """A file's text without its functions, or only without their bodies."""
    for it in reversed(functions(text)):
        text = text[: getattr(it, begin)] + text[it.end :]
    return text


def edited(edit, crate):
    """The texts of the files that an edit changes, and the path, the function and the new body of each changed body;
    the last two are None if the edit changes more of a file than bodies. A ValueError gives the reason why the edit
    cannot be applied."""
    texts, why = kit().read_edit(str(edit), str(crate))
    if why:
        raise ValueError(why)
    places = []
    for path, text in texts.items():
        was = (crate / path).read_text(encoding="utf-8")
        if not path.endswith(".rt") or without(was, "begin") != without(text, "begin"):
            places.append((path, None, None))
            continue
        pairs = zip(functions(was), functions(text))
        places += [(path, old, text[new.begin : new.end]) for old, new in pairs if was[old.begin : old.end] != text[new.begin : new.end]]
    return texts, places


def together(crate, changes):
    """The texts of the files after changes of bodies; each change is the path, the function and the new body, no
    function twice."""
    texts = {}
    # In reverse order, so that earlier offsets stay valid.
    for path, function, body in sorted(changes, key=lambda it: -it[1].begin):
        text = texts.get(path) or (crate / path).read_text(encoding="utf-8")
        texts[path] = text[: function.begin] + body + text[function.end :]
    return texts


def misfit(edit, crate):
    """The reason why an edit cannot be applied to a crate's folder, or None."""
    try:
        edited(edit, crate)
    except ValueError as fault:
        return str(fault)
    return None
