"""Crash images of the real program, made from its system calls.

disk      what a crash may leave of a folder
trace     the program's calls, from strace, and its replies among them
sessions  random folders and command lines
judge     opens images with the program, and says which are wrong
mutants   traces in which a sync is left out or two calls are swapped
search    chains of sessions, and the reports on them

tests/program/crash_images and bench/crash run it. docs/FORMATS.md has the disk, the order of the calls, and the replies.
"""
