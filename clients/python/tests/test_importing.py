"""Tasks of other programs."""
import json
import unittest

from orgstore import importing
from orgstore.heading import States

STATES = States()


class Imports(unittest.TestCase):
    def test_todo_txt(self) -> None:
        text = "x 2026-07-01 2026-06-01 Call Ann +roof @phone due:2026-07-03 key:v http://x.y/z\n\n(B) A\n"
        self.assertEqual(b"".join(task.text(STATES) for task in importing.from_todo_txt(text)).decode(),
                         "* DONE Call Ann http://x.y/z :roof:phone:\n"
                         "CLOSED: [2026-07-01 Wed] DEADLINE: <2026-07-03 Fri>\n"
                         ":PROPERTIES:\n:CREATED: [2026-06-01 Mon]\n:KEY: v\n:END:\n* TODO [#B] A\n")

    def test_taskwarrior(self) -> None:
        given = [{"description": "Pay\nrent", "status": "completed", "uuid": "u-1", "priority": "H", "project": "home",
                  "tags": ["a b", "c"], "due": "20260703T100000Z", "recur": "monthly", "end": "20260701T080000Z",
                  "annotations": [{"entry": "20260630T080000Z", "description": "Called"}]},
                 {"description": "gone", "status": "deleted"}]
        task, = importing.from_taskwarrior(json.dumps(given))
        lines = task.text(STATES).decode().split("\n")
        self.assertEqual((lines[0], lines[2:6]), ("* DONE [#A] Pay rent :a_b:c:",
                                                  [":PROPERTIES:", ":ID: u-1", ":PROJECT: home", ":END:"]))
        self.assertIn("+1m>", lines[1])
        self.assertTrue(lines[6].startswith("- [2026-06-30 "))
        with self.assertRaises(ValueError):
            importing.from_taskwarrior('[{"x": 1}]')
