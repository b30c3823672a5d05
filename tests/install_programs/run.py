"""Runs a design through the library from Python, and shows a register after each of four cycles.

usage: run.py LIBRARY TABLE REGISTER [PORT=VALUE ..]

The ports are written once, after the reset. LIBRARY is a shared object made of libcaisson.a; README.md says how,
under "Install". Any language that calls C functions does the same: each call is lent bytes with their lengths, and
answers three numbers.
"""

import ctypes
import sys

WORD = 4  # bytes of a register in its area, CAISSON_WORD of the header
BYTES = ctypes.POINTER(ctypes.c_uint8)


class Answer(ctypes.Structure):
    """caisson_answer: number is 0 where a call is accepted; count is what the call counts."""

    _fields_ = [("number", ctypes.c_uint32), ("place", ctypes.c_size_t), ("count", ctypes.c_size_t)]


class Refused(Exception):
    """A call was refused, whose numbers caisson.h has, or cannot be made."""


class Box:
    """A design with its two areas, from reset on."""

    def __init__(self, library, image):
        self.library = ctypes.CDLL(library)
        self.image = (ctypes.c_uint8 * len(image)).from_buffer_copy(image)
        self.call("caisson_check")
        self.registers = (ctypes.c_uint8 * self.call("caisson_registers_length"))()
        self.targets = (ctypes.c_uint8 * self.call("caisson_targets_length"))()
        self.call("caisson_reset", self.registers, self.targets)

    def call(self, name, *areas, numbers=()):
        """Lends the image and the areas, each with its length, then 32-bit numbers; answers the count."""
        function = getattr(self.library, name)
        slices = [self.image, *areas]
        function.restype = Answer
        function.argtypes = [BYTES, ctypes.c_size_t] * len(slices) + [ctypes.c_uint32] * len(numbers)
        answer = function(*(part for area in slices for part in (area, len(area))), *numbers)
        if answer.number != 0:
            raise Refused(f"{name}: refused by {answer.number} at place {answer.place}")
        return answer.count

    def write_port(self, register, value):
        """A value below zero is handed over as its two's complement."""
        if not -(1 << 31) <= value < 1 << 32:
            raise Refused(f"{value} does not fit in 32 bits")
        self.call("caisson_write_port", self.registers, numbers=(register, value & 0xFFFFFFFF))

    def run(self, cycles):
        return self.call("caisson_run", self.registers, self.targets, numbers=(cycles,))

    def register(self, number):
        if not 0 <= number < len(self.registers) // WORD:
            raise Refused(f"the design has no register {number}")
        return int.from_bytes(self.registers[WORD * number : WORD * (number + 1)], "little")


def main(arguments):
    try:
        library, table, register, *readings = arguments
        register = int(register)
        readings = [[int(number) for number in reading.split("=")] for reading in readings]
        readings = [(port, value) for port, value in readings]
    except ValueError:
        print("usage: run.py LIBRARY TABLE REGISTER [PORT=VALUE ..]", file=sys.stderr)
        return 2
    try:
        with open(table, "rb") as file:
            box = Box(library, file.read())
        for port, value in readings:
            box.write_port(port, value)
        for cycle in range(1, 5):
            box.run(1)
            print(f"cycle {cycle}: r{register} = {box.register(register)}")
    except (OSError, Refused) as why:
        print(f"run.py: {why}", file=sys.stderr)
        return 1 if isinstance(why, Refused) else 2
    return 0


if __name__ == "__main__":
    sys.exit(main(sys.argv[1:]))
