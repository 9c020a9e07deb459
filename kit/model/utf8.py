"""Which bytes are UTF-8, by RFC 3629, section 3: each character is decoded and held to the shortest form; and how many characters they are."""


def _length(lead):
    """How many bytes a character has, by its first byte; 0 where none begins so."""
    if lead < 0x80:
        return 1
    if lead >> 5 == 0b110:
        return 2
    if lead >> 4 == 0b1110:
        return 3
    if lead >> 3 == 0b11110:
        return 4
    return 0


# the least scalar value that needs so many bytes
_LEAST = {1: 0, 2: 0x80, 3: 0x800, 4: 0x10000}
_LEAD_BITS = {1: 0x7F, 2: 0x1F, 3: 0x0F, 4: 0x07}


def is_utf8(data):
    """Whether the bytes are the encoding of scalar values and nothing else."""
    at = 0
    while at < len(data):
        size = _length(data[at])
        if size == 0 or at + size > len(data):
            return False
        scalar = data[at] & _LEAD_BITS[size]
        for byte in data[at + 1 : at + size]:
            if byte >> 6 != 0b10:
                return False
            scalar = scalar << 6 | byte & 0x3F
        surrogate = 0xD800 <= scalar <= 0xDFFF
        if scalar < _LEAST[size] or scalar > 0x10FFFF or surrogate:
            return False
        at += size
    return True


def characters(data):
    """How many characters bytes have that are UTF-8: every byte but a continuation begins one."""
    return sum(1 for byte in data if byte >> 6 != 0b10)
