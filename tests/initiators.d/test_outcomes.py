"""Tests of what is read from the output of iscsi-test-cu, and of how the processes of a step end."""

import os
import re
import sys
import tempfile
import time
import unittest

sys.path.insert(0, os.path.dirname(os.path.realpath(__file__)))
from loopback import Background, Failed, run  # noqa: E402
from test_cu import ABSENT, FAMILIES, KNOWN_FAILURES, KNOWN_SKIPS, Outcome, outcomes  # noqa: E402

OUTPUT = """\
    [SKIPPED] PERSISTENT RESERVE IN is not implemented.
Suite: Read10
  Test: Simple ...passed
  Test: BeyondEol ...    [FAILED] READ10 failed with wrong sense.
FAILED
    1. test_read10_beyond_eol.c:43  - CU_ASSERT_EQUAL(_r,0)
  Test: ZeroBlocks ...FAILED
    1. test_read10_zeroblocks.c:40  - CU_ASSERT_EQUAL(_r,0)
  Test: DpoFua ...    [SKIPPED] REPORT_SUPPORTED_OPCODES is not implemented.
passed
  Test: Last ...passed    [SKIPPED] PERSISTENT RESERVE IN is not implemented.
  Test: Async ...
"""


class Outcomes(unittest.TestCase):
    def test_each_result(self):
        self.assertEqual([
            Outcome("Simple", "passed"), Outcome("BeyondEol", "failed", "READ10 failed with wrong sense."),
            Outcome("ZeroBlocks", "failed", "test_read10_zeroblocks.c:40  - CU_ASSERT_EQUAL(_r,0)"),
            Outcome("DpoFua", "skipped", "REPORT_SUPPORTED_OPCODES is not implemented."), Outcome("Last", "passed"),
            Outcome("Async", "failed", "it didn't end")], outcomes(OUTPUT))
        self.assertEqual([], outcomes("Failed to connect\n"))

    def test_what_is_known_is_of_a_family(self):
        for name in (*KNOWN_FAILURES, *KNOWN_SKIPS):
            self.assertIn(name.partition(".")[0], set(FAMILIES) - set(ABSENT))
        self.assertLess(set(ABSENT), set(FAMILIES))


class Processes(unittest.TestCase):
    def test_a_step_that_takes_too_long(self):
        began = time.monotonic()
        with self.assertRaisesRegex(Failed, "sh took longer than 0.5 seconds"):
            run(["sh", "-c", "sleep 60 & sleep 60"], 0.5)
        self.assertLess(time.monotonic() - began, 20)

    def test_a_process_beside_others(self):
        with tempfile.TemporaryDirectory() as folder:
            with Background(["sh", "-c", "echo ready; sleep 60"], os.path.join(folder, "log")) as process:
                process.wait_for(re.compile("ready"), 20)
                self.assertTrue(process.end())
                self.assertFalse(process.end())
            with Background(["sh", "-c", "echo why"], os.path.join(folder, "log")) as process:
                with self.assertRaisesRegex(Failed, "sh: why"):
                    process.wait_for(re.compile("ready"), 20)


if __name__ == "__main__":
    unittest.main()
