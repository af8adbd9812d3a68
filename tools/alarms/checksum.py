"""The checksum of a device's texts: CRC-32C (RFC 3720, 12.1), a number of 32 bits."""

POLYNOMIAL = 0x82F63B78


def remainder(byte: int) -> int:
    """What eight shifts make of a register that holds one byte."""
    for _ in range(8):
        byte = byte >> 1 ^ (POLYNOMIAL if byte & 1 else 0)
    return byte


REMAINDERS = [remainder(byte) for byte in range(256)]


def checksum(text: bytes) -> int:
    """The checksum of these bytes."""
    register = 0xFFFFFFFF
    for byte in text:
        register = register >> 8 ^ REMAINDERS[register & 0xFF ^ byte]
    return register ^ 0xFFFFFFFF
