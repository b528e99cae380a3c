"""The families of libiscsi's iscsi-test-cu, and what its output says of each test."""

import re
from dataclasses import dataclass

# All families, each with the seconds that it may take. In iSCSIcmdsn commands aren't answered, and it waits for its own
# time-out.
FAMILIES = dict.fromkeys((
    "CompareAndWrite", "ExtendedCopy", "GetLBAStatus", "Inquiry", "Mandatory", "ModeSense6", "NoMedia", "OrWrite",
    "Prefetch10", "Prefetch16", "PreventAllow", "PrinReadKeys", "PrinServiceactionRange", "PrinReportCapabilities",
    "ProutRegister", "ProutReserve", "ProutClear", "ProutPreempt", "Read6", "Read10", "Read12", "Read16",
    "ReadCapacity10", "ReadCapacity16", "ReadDefectData10", "ReadDefectData12", "ReadOnly", "ReceiveCopyResults",
    "ReportSupportedOpcodes", "Reserve6", "Sanitize", "StartStopUnit", "TestUnitReady", "Unmap", "Verify10", "Verify12",
    "Verify16", "Write10", "Write12", "Write16", "WriteAtomic16", "WriteSame10", "WriteSame16", "WriteVerify10",
    "WriteVerify12", "WriteVerify16", "iSCSIcmdsn", "iSCSIdatasn", "iSCSIResiduals", "iSCSITMF", "MultipathIO"), 20)
FAMILIES["iSCSIcmdsn"] = 30

# What is known of tests that don't pass against the target, by their names FAMILY.TEST, each with the reason: that they
# fail, or that a part of them is skipped by iscsi-test-cu itself. One that passes after all is counted as a failure.
KNOWN_FAILURES = {
    "Sanitize.Readonly": "the test wants to set the software write protection, and the target has no MODE SELECT",
}
SANITIZE = "the target has no SANITIZE, which SBC-3 lets be absent"
KNOWN_SKIPS = {
    "Inquiry.BlockLimits": "the limits of UNMAP are for thin provisioned units, and the units aren't",
    "MultipathIO.CompareAndWriteAsync": "the target has no WRITE SAME and no COMPARE AND WRITE, which SBC-3 lets be "
                                        "absent",
    "ReportSupportedOpcodes.OneCommand": "iscsi-test-cu takes the INVALID FIELD IN CDB for a missing command, with which "
                                         "SPC-4 refuses a service action of an opcode that has none",
    "StartStopUnit.Simple": "the units aren't removable",
    **{f"Sanitize.{test}": SANITIZE for test in (
        "BlockErase", "BlockEraseReserved", "CryptoErase", "CryptoEraseReserved", "ExitFailureMode",
        "InvalidServiceAction", "Overwrite", "OverwriteReserved", "Reservations", "Reset")},
}

# Families of which all tests are skipped, each with the reason.
NO_RESERVATIONS = "the target has no reservations"
NO_COPY = "the target has no EXTENDED COPY"
ABSENT = {
    "CompareAndWrite": "the target has no COMPARE AND WRITE", "ExtendedCopy": NO_COPY, "ReceiveCopyResults": NO_COPY,
    "GetLBAStatus": "the target has no GET LBA STATUS", "OrWrite": "the target has no ORWRITE",
    "Prefetch10": "the target has no PRE-FETCH", "Prefetch16": "the target has no PRE-FETCH",
    "PreventAllow": "the units aren't removable", "ReadOnly": "the units aren't write-protected",
    **dict.fromkeys(("PrinReadKeys", "PrinServiceactionRange", "PrinReportCapabilities", "ProutRegister",
                     "ProutReserve", "ProutClear", "ProutPreempt", "Reserve6"), NO_RESERVATIONS),
    "ReadDefectData10": "the target has no READ DEFECT DATA", "ReadDefectData12": "the target has no READ DEFECT DATA",
    "Unmap": "the units aren't thin provisioned", "WriteAtomic16": "the target has no WRITE ATOMIC",
    "WriteSame10": "the target has no WRITE SAME", "WriteSame16": "the target has no WRITE SAME",
}

TEST = re.compile(r"^  Test: (\S+) \.\.\.", re.MULTILINE)
RESULT = re.compile(r"(?:^|\.\.\.)(passed|FAILED)", re.MULTILINE)
SKIPPED = re.compile(r"\[SKIPPED\] *(.*)")
FAULT = re.compile(r"\[FAILED\] *(.*)|^ +\d+\. (.*)", re.MULTILINE)


@dataclass(frozen=True)
class Outcome:
    """What a test came to: passed, failed, or skipped, which is also one of which a part was skipped."""
    test: str
    result: str
    why: str = ""


def command(url, family):
    """MultipathIO wants two ways to the unit: they are two sessions here, by one portal."""
    ways = [url, url] if family == "MultipathIO" else [url]
    return ["iscsi-test-cu", "--dataloss", "--allow-sanitize", "--fail", "--verbose", f"--test=ALL.{family}", *ways]


def outcomes(output):
    """The outcome of each test in the output of `command`."""
    parts = TEST.split(output)
    return [outcome_of(test, words) for test, words in zip(parts[1::2], parts[2::2])]


def outcome_of(test, words):
    found = RESULT.search("..." + words)
    if not found:
        return Outcome(test, "failed", "it didn't end")
    if found[1] == "FAILED":
        faults = [" ".join(filter(None, fault)) for fault in FAULT.findall(words)]
        return Outcome(test, "failed", faults[0] if faults else "")
    before = words[:max(0, found.start() - 3)]
    skips = SKIPPED.findall(before)
    return Outcome(test, "skipped", skips[0]) if skips else Outcome(test, "passed")
