"""A chain of nine lamps over the C interface: a sensor report, an init and its answer, SETPWM for one lamp and what
the lamp holds then, a telegram with a wrong checksum and the flag that it leaves. Then a capture that arrives in
chunks.

    examples/shared-object && python3 examples/python/board.py
"""

import ctypes
import sys
from ctypes import POINTER, byref, c_char_p, c_size_t, c_uint8, c_uint32, c_uint64
from pathlib import Path

SHARED_OBJECT = Path(__file__).resolve().parents[2] / "target" / "shared" / "libosp.so"

READER_LEN = 21
LAMPS = 9
ONE = 1
CHECKSUM = 5
READSTATUS = 0x40
STATUS_CE = 0x08

# Three telegrams as a logger hands them over, cut inside the second and the third.
CHUNKS = [bytes.fromhex(chunk) for chunk in ("A0 04 02 A9 A0 25", "02 6B 40 D1 A0 17 4F", "03 E8 87 D0 00 00 B4")]

# The arguments of the functions of include/osp.h that are called here. Each but the last returns a uint32_t.
ARGUMENTS = {
    "osp_record_len": [c_uint32],
    "osp_make": [c_char_p, c_size_t, c_uint32, c_uint8, c_uint8, c_uint8, c_uint8],
    "osp_sense": [c_char_p, c_size_t, c_uint32, c_uint8, c_uint32],
    "osp_deliver": [c_char_p, c_size_t, c_char_p, c_size_t, c_char_p, c_size_t],
    "osp_lamp": [c_char_p, c_size_t, c_uint32, c_char_p, c_size_t],
    "osp_build_pwm": [c_uint32] * 6 + [c_char_p, c_size_t],
    "osp_build_command": [c_uint32, c_uint32, c_uint32, c_char_p, c_size_t, c_char_p, c_size_t],
    "osp_dissect_answer": [c_char_p, c_size_t, c_char_p, c_size_t],
    "osp_reader_next": [c_char_p, c_size_t, c_char_p, c_size_t, POINTER(c_size_t), c_char_p, c_size_t],
    "osp_reader_end": [c_char_p, c_size_t],
    "osp_reader_position": [c_char_p, c_size_t],
}


class Refused(Exception):
    """A refusal with the paper's number, 1 to 13; a wrong checksum, 5, with the one worked out and the one received."""

    def __init__(self, result):
        number, computed, received, _ = result.to_bytes(4, "little")
        text = f"refused {number}"
        if number == CHECKSUM:
            text += f": worked out {computed:02X}, received {received:02X}"
        super().__init__(text)
        self.number = number


def load(path):
    library = ctypes.CDLL(str(path))
    for name, arguments in ARGUMENTS.items():
        function = getattr(library, name)
        function.argtypes = arguments
        function.restype = c_uint32
    library.osp_reader_position.restype = c_uint64
    return library


osp = load(sys.argv[1] if len(sys.argv) > 1 else SHARED_OBJECT)


def written(function, *arguments, room):
    """Calls a function with a room of that many bytes behind its arguments. Gives the bytes that were written."""
    out = ctypes.create_string_buffer(room)
    count = done(function(*arguments, out, room))
    return out.raw[:count]


def done(result):
    """The count of a call that was done, which stands above the number; a refusal has none."""
    if result % 256 != 0:
        raise Refused(result)
    return result // 256


class Chain:
    """A chain of lamps in memory of its own."""

    def __init__(self, count, setup, thresholds):
        self.len = osp.osp_record_len(count)
        self.record = ctypes.create_string_buffer(max(self.len, 1))
        done(osp.osp_make(self.record, self.len, count, setup, *thresholds))

    def sense(self, place, temperature, faults):
        """A sensor report; faults is a sum of 4 for LOS, 2 for OT and 1 for UV."""
        done(osp.osp_sense(self.record, self.len, place, temperature, faults))

    def deliver(self, telegram):
        """Delivers a telegram. Gives the answer's bytes, none for no answer."""
        return written(osp.osp_deliver, self.record, self.len, telegram, len(telegram), room=12)

    def lamp(self, place):
        """Reads out the lamp at a place, 18 bytes."""
        return written(osp.osp_lamp, self.record, self.len, place, room=18)


class Reader:
    """A reader of a capture that arrives in chunks. All zeros is a fresh one."""

    def __init__(self):
        self.state = ctypes.create_string_buffer(READER_LEN)

    def telegrams(self, chunk):
        """The telegrams of a chunk, each with the position of its first byte in the capture. The reader carries what it
        has of an unfinished one to the next chunk."""
        at = c_size_t(0)
        arguments = (self.state, READER_LEN, chunk, len(chunk), byref(at))
        while telegram := written(osp.osp_reader_next, *arguments, room=12):
            yield self.position() - len(telegram), telegram

    def end(self):
        """Ends the capture. Bytes of an unfinished telegram are refused."""
        done(osp.osp_reader_end(self.state, READER_LEN))

    def position(self):
        """How many bytes of the capture were telegrams so far."""
        return osp.osp_reader_position(self.state, READER_LEN)


def build_pwm(address, modes, red, green, blue):
    """SETPWM for one lamp; modes is a sum of 4 for red, 2 for green and 1 for blue with day current."""
    return written(osp.osp_build_pwm, ONE, address, modes, red, green, blue, room=12)


def build_command(command, address, payload):
    """A command for one lamp, from its number and its payload."""
    return written(osp.osp_build_command, command, ONE, address, payload, len(payload), room=12)


def answer_bytes(answer):
    """The bytes that an answer carries."""
    return written(osp.osp_dissect_answer, answer, len(answer), room=12)[4:]


def in_hex(data):
    return " ".join(f"{b:02X}" for b in data) or "none"


def deliver(chain, telegram):
    """Delivers a telegram and prints it, and its answer or the refusal. Gives the answer, none when refused."""
    print("tx", in_hex(telegram))
    try:
        answer = chain.deliver(telegram)
    except Refused as refusal:
        print(refusal)
        return b""
    print("rx", in_hex(answer))
    return answer


def colour(name, data):
    """A colour of a PWM field in words: the top bit is the mode, the other 15 are the duty."""
    word = int.from_bytes(data, "big")
    return f"{name} {'day' if word >= 0x8000 else 'night'} {word % 0x8000}"


def main():
    chain = Chain(LAMPS, 0x13, (0x03, 0xE6, 0xF0))
    print(f"{LAMPS} lamps in {chain.len} bytes")

    # The lamp at place 8, the last one, has temperature 6B and no fault. It answers INITBIDIR from 1.
    chain.sense(8, 0x6B, 0)
    deliver(chain, bytes.fromhex("A0 04 02 A9"))

    # Lamp 5, at place 4: red and blue with night current, green with day current.
    deliver(chain, build_pwm(5, 2, 1000, 2000, 0))
    lamp = chain.lamp(4)
    address = int.from_bytes(lamp[0:2], "big")
    red, green, blue = colour("red", lamp[12:14]), colour("green", lamp[14:16]), colour("blue", lamp[16:18])
    print(f"place 4: address {address:03X}, {red}, {green}, {blue}")

    # A wrong checksum is refused and changes nothing but CE on the lamp at place 0. That of RESET should be 22.
    deliver(chain, bytes.fromhex("A0 00 00 23"))

    answer = deliver(chain, build_command(READSTATUS, 1, b""))
    status = answer_bytes(answer)[0]
    print(f"lamp 1: status {status:02X}, CE is {'set' if status & STATUS_CE else 'not set'}")

    reader = Reader()
    for chunk in CHUNKS:
        for position, telegram in reader.telegrams(chunk):
            print(f"at {position}:", in_hex(telegram))
    reader.end()
    print(f"capture ended at {reader.position()}")


main()
