"""The rows of tests/program/commands, by command."""
