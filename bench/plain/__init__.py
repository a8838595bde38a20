"""The program written plainly: from arguments and the bytes of a script, what must be written and the status.

Each answer is computed from nothing, over all records of the window, as the document says that each module names.
Nothing but costs knows of trees or a memo, and no code is shared with the program. It is a program too:

    python3 bench/plain --job count --tree coalescing < script
"""
