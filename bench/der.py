"""Elements of DER (X.690), as the bench's large files are made of."""

SEQUENCE, SET, INTEGER, BIT_STRING, OCTET_STRING, OID, UTF8_STRING, UTC_TIME = 0x30, 0x31, 0x02, 0x03, 0x04, 0x06, 0x0C, 0x17


def element(identifier, *parts):
    contents = b"".join(parts)
    length = len(contents)
    if length < 128:
        return bytes([identifier, length]) + contents
    octets = length.to_bytes((length.bit_length() + 7) // 8, "big")
    return bytes([identifier, 0x80 + len(octets)]) + octets + contents


ALGORITHM = element(SEQUENCE, element(OID, bytes.fromhex("2a8648ce3d040302")))  # ecdsa-with-SHA256
NAME = element(SEQUENCE, element(SET, element(SEQUENCE, element(OID, b"\x55\x04\x03"), element(UTF8_STRING, b"Example CA"))))
