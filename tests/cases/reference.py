#!/usr/bin/env python3
"""What ./hiranthok prints, written a second time from the papers and docs/PROGRAM.md alone.

It shares no code or table with the program; its modules are in the folder reference. It takes the program's
arguments, so that HIRANTHOK="python3 tests/cases/reference.py" tests/cases/run holds it to the expected output.
"""
import os
import sys
sys.dont_write_bytecode = True
sys.path.insert(0, os.path.join(os.path.dirname(os.path.abspath(__file__)), "reference"))
from commands import main

sys.exit(main(sys.argv[1:]))
