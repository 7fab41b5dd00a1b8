"""Runs a module by the command that is called: gate/try_keep hands itself on to this file, which runs gate/try_keep.py.

usage: python3 FOLDER gate/try_keep [WORD ..]

Python looks for modules in the folder of this file. So the modules of gate, tools and bench import each other by their
package, and none of them names a folder to look in.
"""
import importlib
import os
import sys

sys.dont_write_bytecode = True
if __name__ == "__main__":
    del sys.argv[0]
    if not sys.argv:
        sys.exit(__doc__)
    folder, name = os.path.split(os.path.abspath(sys.argv[0]))
    sys.exit(importlib.import_module(f"{os.path.basename(folder)}.{name}").main())
