"""A model of host, terminal, command lines and scripts, in plain Python.

It was written from the rules alone, by someone who had not read the crates; docs/reference/PROTOCOL.md, docs/reference/COMMANDS.md and
docs/reference/SCRIPTS.md state them, too. Never mend it by a look at the crates: where program and model differ, those rules decide which
of the two is wrong. It shares nothing with the program but the text of scripts, is never short of memory, and stays far from full counts.
"""
