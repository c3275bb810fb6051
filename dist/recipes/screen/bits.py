"""The number of bits that a frame takes on the bus."""


def stuffed(state, bit):
    """The stuff bits for one bit, and the state after them: 4 times the last bit, plus the number of equal bits at the end,
    less one."""
    last, run = divmod(state, 4)
    if bit != last:
        return 0, 4 * bit
    return (1, 4 * (1 - bit)) if run == 3 else (0, state + 1)


def stuffing(width):
    """The same for several bits at once: by the state before them and the bits, 8 times the stuff bits, plus the state after."""
    table = []
    for state in range(8):
        for bits in range(1 << width):
            now, count = state, 0
            for place in range(width - 1, -1, -1):
                more, now = stuffed(now, bits >> place & 1)
                count += more
            table.append(8 * count + now)
    return table


def checksums():
    """CAN's cyclic redundancy check (x^15 + x^14 + x^10 + x^8 + x^7 + x^4 + x^3 + 1) of each byte."""
    table = []
    for byte in range(256):
        crc = byte << 7
        for _ in range(8):
            crc = (crc << 1 & 0x7FFF) ^ (0x4599 if crc & 0x4000 else 0)
        table.append(crc)
    return table


BY_8, BY_7 = stuffing(8), stuffing(7)
CRC = checksums()


class Frames:
    """The number of bits that a frame takes, as CAN 2.0B (ISO 11898-1) lays it out: start 1, identifier 29 in two parts with
    SRR and IDE between them, RTR, r1 and r0, length 4, the data, CRC 15; then its delimiter, acknowledgement 2, end 7, and
    the 3 between frames: 67 bits and the data. (11 bits of identifier: 47.) From the start to the CRC a sender adds a stuff
    bit after each five equal bits; these are counted exactly, as by can-utils' `canbusload -e`."""

    def __init__(self):
        # By identifier and length, what stands before the data: its CRC and state, and the frame's other bits.
        self.fronts = {}

    def front(self, identifier, length):
        number = int(identifier, 16)
        if len(identifier) == 8:
            width, bits = 39, ((number >> 18 << 2 | 3) << 18 | number & 0x3FFFF) << 7 | length
        else:
            width, bits = 19, number << 7 | length
        # Before the start the bus is idle, which is 1. What stands before a whole number of bytes is taken bit for bit.
        crc, state, count = 0, 4, 0
        for place in range(width - 1, width // 8 * 8 - 1, -1):
            more, state = stuffed(state, bits >> place & 1)
            count += more
        for place in range(width // 8 * 8, -1, -8):
            crc = (crc << 8 & 0x7FFF) ^ CRC[(crc >> 7) ^ (bits >> place & 255)]
            if place < width // 8 * 8:
                found = BY_8[state << 8 | bits >> place & 255]
                state = found & 7
                count += found >> 3
        if len(self.fronts) > 10000:
            self.fronts = {}
        self.fronts[identifier, length] = found = crc, state, width + count + 8 * length + 15 + 13
        return found

    def bits(self, identifier, data):
        """The bits of a frame with this identifier, 3 or 8 digits, and these bytes."""
        crc, state, count = self.fronts.get((identifier, len(data))) or self.front(identifier, len(data))
        for byte in data:
            crc = (crc << 8 & 0x7FFF) ^ CRC[(crc >> 7) ^ byte]
            found = BY_8[state << 8 | byte]
            state = found & 7
            count += found >> 3
        found = BY_8[state << 8 | crc >> 7]
        return count + (found >> 3) + (BY_7[(found & 7) << 7 | crc & 127] >> 3)
