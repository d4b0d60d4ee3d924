"""The record of the program's system calls, printed and compared with what strace shows.

build     a program that prints its record: printing.txt is added to the crate that keeps it
wrapper.c runs that program under strace in place of the program that a script tries
strace    strace's lines as calls
record    what the program notes of a call
compare   whether the calls between two notes are the one that is noted

tests/program/calls runs it, and tests/long/calls tries programs that note other calls than they make.
"""
