"""Tests of tools/explain."""

import os
import subprocess
import tempfile
import unittest

from helpers import TOP, replay, run_tool

PDU = "{first}8{low}0000000000000{unit:03x}000000000000{tag:08x}{referenced:08x}{cmd_sn:08x}00000000{end:0<32}"


def command(cmd_sn, tag, cid=1, unit=0, first="01", low=1, end="28"):
    return f"C {cid} " + PDU.format(first=first, low=low, unit=unit, tag=tag, referenced=0, cmd_sn=cmd_sn, end=end)


def example(name, *words):
    with open(os.path.join(TOP, "examples", "recordings", name + ".recording"), encoding="ascii") as file:
        return replay(file.read(), *words)


def explained(report):
    """What is said of the events. What has no answer stands behind an empty line."""
    done = run_tool("explain", text=report)
    if done.returncode:
        raise AssertionError(done.stderr)
    return done.stdout.partition("\n\n")[0].splitlines()


class Words(unittest.TestCase):
    def test_abort(self):
        lines = explained(example("abort-task", "--window", "4"))
        for line in (
                "   1  CID 1, TEST UNIT READY, unit 0, CmdSN 3, tag a3: held, CmdSNs 1 and 2 are missing",
                "   3  CID 1, ABORT TASK of tag a2 (RefCmdSN 2), unit 0, immediate, CmdSN 5, tag b1:",
                "        CmdSN 2 counts as received, without a request",
                "        answered function complete on CID 1, StatSN 1, ExpCmdSN 1, MaxCmdSN 4",
                "   4  CID 2, TEST UNIT READY, unit 0, CmdSN 2, tag a2: ignored: CmdSN 2 was received already",
                "        CmdSN 3, which was held, is taken out, and isn't answered: TEST UNIT READY, tag a3, CID 1",
                "        CmdSN 4, which was held, executes: TEST UNIT READY, tag a4, CID 1",
                "        ticket 2 of unit 0 is taken out, and isn't answered: TEST UNIT READY, tag a4, CID 1",
                "   8  ticket 2 is completed with GOOD: ignored: ticket 2 was taken out by ABORT TASK",
                "   9  unit 0 completes ticket 1 (TEST UNIT READY, tag a1, CID 2) with GOOD:"):
            self.assertIn(line, lines)

    def test_voided_and_emptied_numbers_are_not_missing(self):
        abort = "C 1 " + PDU.format(first="42", low=1, unit=0, tag=0xb1, referenced=0xee, cmd_sn=9, end="00000003")
        recording = "\n".join(("conn 1 00000001", command(2, 0xa2), abort, command(6, 0xa6)))
        last = explained(replay(recording + "\n"))[-1]
        self.assertEqual("   3  CID 1, READ(10), unit 0, CmdSN 6, tag a6: held, CmdSNs 1, 4 and 5 are missing", last)

    def test_one_and_many_missing(self):
        recording = "\n".join(("conn 1 00000001", command(1, 0xa1), command(3, 0xa3), command(9, 0xa9), ""))
        lines = explained(replay(recording))
        self.assertTrue(lines[-2].endswith("held, CmdSN 2 is missing"), lines)
        self.assertTrue(lines[-1].endswith("held, CmdSNs 2 and 4 to 8 are missing"), lines)

    def test_numbers_that_wrap(self):
        recording = "\n".join(("conn 1 00000001", command(1, 0xa1), command(0xfffffffe, 0xa2), ""))
        lines = explained(replay(recording, "--first", "fffffffe"))
        self.assertTrue(lines[0].endswith("held, CmdSNs fffffffe to 0 are missing"), lines)

    def test_no_number_is_told(self):
        self.assertEqual(["   1  CID 1, READ(10), unit 0, CmdSN 3, tag a3: held, as lower CmdSNs are missing"],
                         explained(replay("conn 1 00000001\n" + command(3, 0xa3) + "\n")))

    def test_why_ignored(self):
        recording = "\n".join(("conn 1 00000001", command(1, 0xa1), command(1, 0xa2), command(0x30, 0xa3), "D 7 00",
                               "D 1 02", "D 1 00", command(0, 0xa4, first="05"), ""))
        lines = explained(replay(recording))
        for end in ("CmdSN 1, tag a2: ignored: CmdSN 1 is below ExpCmdSN 2",
                    "tag a3: ignored: CmdSN 30 is above MaxCmdSN",
                    "ticket 7 is completed with GOOD: ignored: ticket 7 was never given",
                    "ticket 1 is completed with GOOD: ignored: ticket 1 was completed with CHECK CONDITION",
                    "SCSI Data-Out, tag a4: ignored: SCSI Data-Out has no part in the order of commands"):
            self.assertTrue(any(line.endswith(end) for line in lines), (end, lines))

    def test_dormant_and_attributes(self):
        recording = "\n".join(("conn 1 00000001", command(1, 0xa1), command(2, 0xa2, low=2), "D 2 00", "D 1 00", ""))
        lines = explained(replay(recording))
        behind = "ticket 1 (SIMPLE READ(10), tag a1)"
        self.assertIn(f"        ticket 2 enters unit 0 as ORDERED, and may not start yet: it stands behind {behind}", lines)
        self.assertIn("   3  unit 0 completes ticket 2 (READ(10), tag a2, CID 1) with GOOD: "
                      "ignored: ticket 2 may not start yet", lines)
        self.assertEqual(f"        ticket 2 may start: it waited behind {behind}", lines[-1])

    def test_what_bars_a_command(self):
        """A HEAD OF QUEUE command bars those that came before it, too, if they aren't enabled; many are counted."""
        recording = "\n".join(("conn 1 00000001", *(command(number, 0xa0 + number) for number in range(1, 6)),
                               command(6, 0xa6, low=2), command(7, 0xa7, low=3), command(8, 0xa8), ""))
        lines = explained(replay(recording))
        self.assertIn("        ticket 6 enters unit 0 as ORDERED, and may not start yet: it stands behind ticket 1 (SIMPLE READ(10), tag "
                      "a1), ticket 2 (SIMPLE READ(10), tag a2), ticket 3 (SIMPLE READ(10), tag a3) and 2 more", lines)
        self.assertIn("        ticket 8 enters unit 0 as SIMPLE, and may not start yet: it stands behind ticket 6 (ORDERED READ(10), tag "
                      "a6), ticket 7 (HEAD OF QUEUE READ(10), tag a7)", lines)

    def test_times_frames_and_the_sense_of_the_target(self):
        recording = "\n".join((
            "conn 1 00000001", "# time 0.100000 frame 3: READ(10), tag 000000a2", command(2, 0xa2),
            "# time 0.300000 frame 5: READ(10), tag 000000a1", command(1, 0xa1),
            "# time 0.400000 frame 7: READ(10), tag 000000a3", command(3, 0xa3, low=2),
            "# time 1.500000 frame 9: CHECK CONDITION (UNIT ATTENTION, 29/00) for tag 000000a1", "D 1 02",
            "# time 1.600000 frame 10: made up, since the capture lacks it: GOOD for tag 000000a2", "D 2 00", ""))
        with tempfile.TemporaryDirectory() as folder:
            path = os.path.join(folder, "made.recording")
            with open(path, "w", encoding="ascii") as file:
                file.write(recording)
            report = replay(recording)
            lines = run_tool("explain", "-", "--recording", path, text=report).stdout.splitlines()
            other = run_tool("explain", "-", "--recording", path, text=report.replace("D 2 00", "D 2 08"))
        for line in (
                "   1  [0.100000 s, frame 3] CID 1, READ(10), unit 0, CmdSN 2, tag a2: held, CmdSN 1 is missing",
                "        CmdSN 2, which was held, executes: READ(10), tag a2, CID 1, held for 0.200000 s",
                "        answered CHECK CONDITION (UNIT ATTENTION, 29/00) on CID 1, StatSN 1, ExpCmdSN 4, MaxCmdSN 21",
                "   5  [1.600000 s, frame 10, made up] unit 0 completes ticket 2 (READ(10), tag a2, CID 1) with GOOD:",
                "        ticket 3 may start: it waited 1.200000 s behind ticket 1 (SIMPLE READ(10), tag a1), "
                "ticket 2 (SIMPLE READ(10), tag a2)"):
            self.assertIn(line, lines)
        self.assertEqual((1, f"explain: {path}: not the recording of this report\n"), (other.returncode, other.stderr))

    def test_the_sense_of_a_completion_is_not_the_program_s_own(self):
        lines = explained(replay("\n".join(("conn 1 00000001", command(1, 0xa1), "D 1 02", ""))))
        self.assertIn("        answered CHECK CONDITION on CID 1, StatSN 1, ExpCmdSN 2, MaxCmdSN 21", lines)

    def test_sense_and_reject(self):
        recording = "\n".join(("conn 1 00000007", command(1, 0xa1, unit=9), command(2, 0xa2, low=5), ""))
        lines = explained(replay(recording))
        self.assertIn("        answered CHECK CONDITION (ILLEGAL REQUEST, LOGICAL UNIT NOT SUPPORTED) on CID 1, "
                      "StatSN 7, ExpCmdSN 2, MaxCmdSN 21", lines)
        self.assertIn("        rejected (invalid PDU field) on CID 1, StatSN 8, ExpCmdSN 3, MaxCmdSN 22", lines)

    def test_function_that_waits_and_executes(self):
        lines = explained(example("function-that-waits", "--window", "4"))
        waits = "waits for lower CmdSNs: CmdSNs 1 and 2 are missing"
        self.assertTrue(any(line.endswith(waits) for line in lines), lines)
        self.assertIn("        the function that waited for CmdSN 3 executes: ABORT TASK SET, tag b1, CID 2", lines)

    def test_abort_that_finds_nothing(self):
        abort = command(1, 0xb1, first="42", low=2, end="")
        lines = explained(replay(f"conn 1 00000001\n{abort}\n"))
        self.assertTrue(lines[-1].endswith("MaxCmdSN 20; nothing was taken out"), lines)

    def test_logout_drops_what_waited(self):
        lines = explained(example("logout", "--window", "4"))
        self.assertIn("        connection 2 is closed; ABORT TASK SET, tag b1, CID 2, which waited, is dropped", lines)
        self.assertIn("  10  CID 1, NOP-Out, CmdSN 5, tag b2: ignored: the session is closed", lines)

    def test_every_effect_has_a_line(self):
        """Of all the worked reports: a line for each event, and one for each effect where there are several."""
        cases = os.path.join(TOP, "tests", "cases")
        reports = [path for path in (os.path.join(cases, name, "report") for name in sorted(os.listdir(cases)))
                   if os.path.isfile(path) and os.path.getsize(path)]
        self.assertGreater(len(reports), 80)
        for path in reports:
            with open(path, encoding="ascii") as file:
                counts = [len(part.split("\n  ")) - 1 for part in file.read().rstrip("\n").split("\n> ")]
            lines = run_tool("explain", path).stdout.partition("\n\n")[0].splitlines()
            self.assertEqual(sum(1 + (count if count > 1 else 0) for count in counts), len(lines), path)


class Faults(unittest.TestCase):
    def assert_fault(self, pattern, *words, text=None):
        done = run_tool("explain", *words, text=text)
        self.assertEqual(1, done.returncode, done)
        self.assertRegex(done.stderr, r"\Aexplain: " + pattern + r"\n\Z")

    def test_files(self):
        with tempfile.TemporaryDirectory() as folder:
            self.assert_fault(".*none: No such file or directory", os.path.join(folder, "none"))
            self.assert_fault(".*: Is a directory", folder)
            binary = os.path.join(folder, "binary")
            with open(binary, "wb") as file:
                file.write(bytes(range(256)))
            self.assert_fault("line 1: not a line of a report", binary)

    def test_texts(self):
        arrival = "> " + command(1, 0xa1)
        for text, pattern in (
                ("", "the report has no events"), (command(1, 0xa1), r"line 1: .*\(a recording\?.*\)"),
                (f"{arrival}\n  leave 4", "line 2: ticket 4 isn't live"),
                (f"{arrival}\n  deliver 1 00000002 000000a2", "line 2: no request with CmdSN 00000002 was held"),
                (f"{arrival}\n  immediate 1 00000002 000000a2",
                 "line 2: no function with CmdSN 00000002 and tag 000000a2 waited"),
                (f"{arrival}\n  empty 00000009", "line 2: no request with CmdSN 00000009 was held"),
                ("> D 1 00\n  enter 1 0 simple", "line 2: no request arrived that could enter"),
                (f"{arrival}\n  deliver 1 00000001 000000a1\n  enter 1 0 simple\n> D 2 00\n  leave 1",
                 "line 5: no request arrived that could take a ticket out"),
                ("> D 1 00\n  ignore outside", "line 2: no event is ignored so"),
                ("> D 1 00\n  wait 1 00000001 00000001", "line 2: no function arrived")):
            self.assert_fault(pattern, text=text)

    def test_numbers_without_end_and_events_without_end(self):
        self.assert_fault("line 1: not an event of a report", text="> D " + "7" * 5000 + " 00\n")
        self.assert_fault("line 65538: an event has no more than 65536 effects", text="> D 1 00\n" + "  enable 1\n" * 70000)

    def test_closed_input_and_output(self):
        tool = os.path.join(TOP, "tools", "explain")
        for close, why in (("<&-", "standard input: it is closed"), (">&-", "the output was closed")):
            done = subprocess.run(["sh", "-c", f'exec "$0" {close}', tool], input="> D 1 00\n", capture_output=True, text=True, check=False)
            self.assertEqual((1, f"explain: {why}\n"), (done.returncode, done.stderr))

    def test_closed_pipe_and_full_disk(self):
        report = example("abort-task", "--window", "4").encode()
        tool = os.path.join(TOP, "tools", "explain")
        reader, writer = os.pipe()
        os.close(reader)
        for output in (writer, os.open("/dev/full", os.O_WRONLY)):
            done = subprocess.run([tool], input=report, stdout=output, stderr=subprocess.PIPE, check=False)
            os.close(output)
            self.assertEqual(1, done.returncode)
            self.assertRegex(done.stderr.decode(), r"\Aexplain: [^\n]*\n\Z")

    def test_command_line(self):
        self.assertEqual(2, run_tool("explain", "--nothing").returncode)


if __name__ == "__main__":
    unittest.main()
