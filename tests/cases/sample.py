"""The built-in sample of ospf-plan, and what one edit makes of it."""

# docs/FORMATS.md has its bytes.
SAMPLE = bytes.fromhex(
    "4f535750 01 01 00000000 00 0002"
    "00010201 01010101 01010101 80000001 d55a0024 00000001 02020202 0a000001 0100000a"
    "00010201 02020202 02020202 80000001 62a70030 00000002 01010101 0a000002 0100000a"
    "0a020000 ffff0000 03000005 0000"
)

COST = b"cost 0.0.0.0 1.1.1.1 1 65535\n"


def with_metric(metric: bytes, checksum: bytes) -> bytes:
    """The sample with another metric of the first link of 1.1.1.1, and the checksum of that LSA."""
    dump = bytearray(SAMPLE)
    dump[29:31], dump[47:49] = checksum, metric
    return bytes(dump)


# The sample after COST.
EDITED = with_metric(b"\xff\xff", b"\x21\x19")

# The session of the sample after COST, and before it.
SESSION = SAMPLE[:4] + b"\x02" + SAMPLE[5:] + b"\0\1\0\0" + COST
BASE = SAMPLE[:4] + b"\x02" + SAMPLE[5:] + b"\0\0\0\0"
