"""What each run costs, counted plainly: records mapped, tables merged, values joined.

Leaves, trees and both memos are kept as docs/formats describes them, in dictionaries and lists, and no code is shared
with the program. With one worker the counts are exact. With several a run may cost more, since its tasks meet in the
memos in any order; how much more is counted too. Start at `costs_of` in script.py, then `Engine.run` in engine.py.
"""
