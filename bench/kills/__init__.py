"""The parts of ./demo, which kills the program and Emacs, and counts what that does to notes.

notes     the notes, the commands that move their entries, and the judge: which entries are lost, doubled or torn
program   runs of the program, killed at random moments and before each call
emacs     Org's own commands (kills.el), killed before each call
counts    what was counted, and the tables of it
main      the words of ./demo, and all parts one after another

tests/program/demo judges the judge; tests/program/full_disk takes its notes and its judge too.
"""
