"""Tests of tests/lib/initiator against a small target that takes what comes and answers each request at once."""

import importlib.machinery
import importlib.util
import os
import socket
import struct
import subprocess
import sys
import threading
import unittest

from helpers import TOP

sys.path.insert(0, os.path.join(TOP, "tools"))
from lib.pdu import DATA_OUT, LOGIN, LOGOUT, NO_TAG, Request, number  # noqa: E402
from lib.streams import Splitter  # noqa: E402

PROGRAM = os.path.join(TOP, "tests", "lib", "initiator")
NAME = "iqn.2026-01.example:disk"
RESETTING, PINGING = 0x66, 0x67
ANSWERS = {0x00: 0x20, 0x01: 0x21, 0x02: 0x22, 0x06: 0x26}


def reset(connection):
    """Closes a connection by a reset, and not by its end."""
    connection.setsockopt(socket.SOL_SOCKET, socket.SO_LINGER, struct.pack("ii", 1, 0))
    connection.close()


class Target:
    """Takes each connection in a thread of its own, and keeps the requests in the order in which they came."""

    def __init__(self, login_status=0):
        self.login_status = login_status
        self.came = []
        self.logins = []
        self.listener = socket.create_server(("127.0.0.1", 0))
        self.port = self.listener.getsockname()[1]
        threading.Thread(target=self.accept, daemon=True).start()

    def accept(self):
        while True:
            try:
                connection, _ = self.listener.accept()
            except OSError:
                return
            threading.Thread(target=self.serve, args=(connection,), daemon=True).start()

    def serve(self, connection):
        splitter, cid = Splitter(from_initiator=True, keeps_all_data=True), None
        while data := connection.recv(65536):
            for pdu in splitter.take_bytes(data):
                if pdu.header[0] & 0x3f == LOGIN:
                    cid = number(pdu.header, 20, 21)
                    splitter.header_digest = splitter.data_digest = b"HeaderDigest=CRC32C" in pdu.data
                    self.log_in(connection, pdu)
                else:
                    self.came.append((cid, Request(pdu.header), pdu.data))
                    if number(pdu.header, 16, 19) == RESETTING:
                        reset(connection)
                        return
                    self.answer(connection, pdu.header)
        connection.close()

    def log_in(self, connection, pdu):
        self.logins.append(pdu)
        answer = bytearray(struct.pack(">BB42x", 0x23, 0x87).ljust(48, b"\0"))
        answer[14:16], answer[36] = b"\0\x07", self.login_status
        connection.sendall(answer)

    def answer(self, connection, header):
        """A response of the request's tag, or an R2T for a write; before one, two NOP-Ins of the target's own."""
        if number(header, 16, 19) == PINGING:
            for transfer_tag in (b"\x80\0\0\x01", b"\xff" * 4):
                connection.sendall(struct.pack(">BB14x4s4s4s20x", 0x20, 0x80, b"\xff" * 4, transfer_tag, bytes(4)))
        asks = header[0] & 0x3f == 1 and header[1] & 0x20
        if header[0] & 0x3f in ANSWERS and number(header, 16, 19) != NO_TAG:
            answer = bytearray(48)
            answer[0], answer[1] = (0x31 if asks else ANSWERS[header[0] & 0x3f]), 0x80
            answer[16:20], answer[20:24], answer[44:48] = header[16:20], b"\0\0\0\x55", (8).to_bytes(4, "big")
            connection.sendall(answer)


class Initiator(unittest.TestCase):
    def setUp(self):
        self.target = Target()
        self.addCleanup(self.target.listener.close)

    def run_program(self, *words, text=None, port=None, target=NAME):
        return subprocess.run([PROGRAM, f"127.0.0.1:{port or self.target.port}", target, *words], input=text,
                              capture_output=True, text=True, timeout=60)

    def play(self, *words, text=None):
        done = self.run_program(*words, text=text)
        self.assertEqual((0, ""), (done.returncode, done.stderr))
        return done.stdout

    def requests(self):
        return [request for _, request, _ in self.target.came]

    def test_numbers_tags_and_connections(self):
        self.play("--connections", "2", "--first", "fffffffe", "2 test sn=2 tag=9", "wait 9", "1 test sn=0", "wait 10",
                  "1 nop sn=1 now=1", "wait 11")
        self.assertEqual([(2, 9, 0, False), (1, 10, 0xfffffffe, False), (1, 11, 0xffffffff, True)],
                         [(cid, request.tag, request.cmd_sn, request.immediate)
                          for cid, request, _ in self.target.came])
        self.assertEqual([(1, 0), (2, 7)], [(number(pdu.header, 20, 21), number(pdu.header, 14, 15))
                                            for pdu in self.target.logins])

    def test_script_from_standard_input(self):
        told = self.play(text="# a comment\n\n1 inquiry lun=3\nwait 1\n1 read block=5 count=2 attr=2\nwait 2\n")
        self.assertEqual([("INQUIRY", 3, 1, 1), ("READ(10)", 1, 2, 2)],
                         [(request.name, request.unit, request.attribute, request.cmd_sn)
                          for request in self.requests()])
        self.assertEqual("28000000000500000200", self.requests()[1].cdb[:10].hex())
        self.assertEqual(2, told.count("SCSI Response GOOD"))

    def test_functions_and_logouts(self):
        self.play("1 abort-task ref=0x10 refsn=3 now=1", "1 reset lun=2", "1 function-9", "1 logout reason=1 cid=5",
                  "wait 4")
        abort, reset, query, logout = self.requests()
        self.assertEqual((1, 0x10, 4, True), (abort.function, abort.referenced_tag, abort.ref_cmd_sn, abort.immediate))
        self.assertEqual((5, 2, 9), (reset.function, reset.unit, query.function))
        self.assertEqual((LOGOUT, 1, 5), (logout.opcode, logout.function, logout.cid))

    def test_data_for_a_write(self):
        told = self.play("1 write", "pause 0.3", "1 data 1", "1 test", "wait 2")
        self.assertIn("Ready To Transfer", told)
        _, out, data = self.target.came[1]
        self.assertEqual((DATA_OUT, 1, 0x55, bytes(8)), (out.opcode, out.tag, out.referenced_tag, data))

    def test_pings_are_answered_and_not_shown(self):
        told = self.play(f"1 test tag={PINGING}", f"wait {PINGING}", "1 test tag=2", "wait 2")
        self.assertRegex(told, r"\A1 SCSI Response GOOD: tag 00000067, .*\n1 SCSI Response GOOD: tag 00000002, .*\n\Z")
        _, ping, _ = self.requests()
        self.assertEqual((0, True, 0xffffffff, 0x80000001, 2),
                         (ping.opcode, ping.immediate, ping.tag, ping.referenced_tag, ping.cmd_sn))
        # The NOP-Ins take no StatSN, so what is acknowledged with the answer is the login.
        self.assertEqual([1, 1], [number(request.header, 28, 31) for request in self.requests()[:2]])

    def test_digests_are_asked_for(self):
        self.run_program("--digests", "pause 0.1")
        self.assertIn(b"HeaderDigest=CRC32C\0DataDigest=CRC32C\0", self.target.logins[0].data)

    def test_crc32c(self):
        loader = importlib.machinery.SourceFileLoader("initiator", PROGRAM)
        module = importlib.util.module_from_spec(importlib.util.spec_from_loader("initiator", loader))
        sys.dont_write_bytecode, before = True, sys.dont_write_bytecode
        try:
            loader.exec_module(module)
        finally:
            sys.dont_write_bytecode = before
        self.assertEqual("e3069283", module.crc32c(b"123456789")[::-1].hex())
        self.assertEqual("aa36918a", module.crc32c(bytes(32)).hex())

    def test_connections_that_the_target_ends(self):
        told = self.play("--connections", "2", f"2 test tag={RESETTING}", f"wait {RESETTING} 0.5", "1 test tag=1",
                         "wait 1")
        self.assertRegex(told, r"\A2 closed\nno reply to tag 00000066\n1 SCSI Response GOOD: tag 00000001")
        self.refused("no connection 2", "--connections", "2", f"2 test tag={RESETTING}", "pause 0.5", "2 test")

    def test_no_reply(self):
        self.assertIn("no reply to tag 00000077\n", self.play("wait 0x77 0.1"))

    def refused(self, why, *words, **named):
        done = self.run_program(*words, **named)
        self.assertEqual(1, done.returncode)
        self.assertRegex(done.stderr, rf"\Ainitiator: .*{why}.*\n\Z")

    def test_bad_scripts(self):
        self.refused("no connection 3", "3 test")
        self.refused("no request is called hello", "1 hello")
        self.refused("test: no name lum", "1 test lum=2")
        self.refused("the target asked for no data for tag 4", "1 data 4")
        for line in ("1", "hello", "wait", "wait x", "1 test tag", "1 test tag=x", "1 function-x",
                     "1 test tag=0x100000000"):
            self.refused("not a line of a script", line)

    def test_targets_that_do_not_take_it(self):
        with socket.create_server(("127.0.0.1", 0)) as closed:
            port = closed.getsockname()[1]
        self.refused(f"127.0.0.1:{port}: Connection refused", "1 test", port=port)
        target = Target(login_status=2)
        self.addCleanup(target.listener.close)
        self.refused("doesn't accept the login: status 0200", "1 test", port=target.port)

    def test_bad_command_lines(self):
        for words in ((), ("host",), ("host", NAME), ("host:x", NAME), ("host:1", NAME, "--connections", "x")):
            done = subprocess.run([PROGRAM, *words], capture_output=True, stdin=subprocess.DEVNULL)
            self.assertEqual(2, done.returncode, words)


if __name__ == "__main__":
    unittest.main()
