"""The library of clients/python, for the programs of this folder: `import pathclient` gives that package."""
import importlib.util
import pathlib
import sys

_file = pathlib.Path(__file__).resolve().parents[2] / "clients" / "python" / "pathclient" / "__init__.py"
_spec = importlib.util.spec_from_file_location("pathclient", _file, submodule_search_locations=[str(_file.parent)])
sys.modules["pathclient"] = _package = importlib.util.module_from_spec(_spec)
_spec.loader.exec_module(_package)
