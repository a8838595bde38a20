"""Writes what the program must write for the script on standard input, writes the last line that it must write on
standard error unless that is a work line, and ends with its status."""

import os
import sys

sys.path[0] = os.path.dirname(os.path.dirname(os.path.abspath(__file__)))

from plain.program import run_program  # noqa: E402  (the line above finds the package)

ended = run_program([os.fsencode(argument) for argument in sys.argv[1:]], sys.stdin.buffer.read())
sys.stdout.buffer.write(ended.out)
sys.stderr.buffer.write(ended.last)
sys.stdout.flush()
sys.exit(ended.status)
