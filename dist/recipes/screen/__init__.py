"""The modules of the recipe `live`. `page` is the recipe of that name, with units, times and alarms."""
import importlib.machinery
import importlib.util
import pathlib

LOADER = importlib.machinery.SourceFileLoader("page", str(pathlib.Path(__file__).resolve().parents[1] / "page"))
page = importlib.util.module_from_spec(importlib.util.spec_from_loader("page", LOADER))
LOADER.exec_module(page)
