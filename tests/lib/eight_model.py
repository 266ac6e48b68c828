"""A reading of pages in codes, in seven bits or in eight, written for itself: what the eight-bit form is compared with.

It follows macros, and gives what a page does as a list of acts: characters of a set, picture codes with their operands,
controls. Shifts and designations only say which set a byte is of, and are no acts.
"""
PRIMARY, SUPPLEMENTARY, PDI, MOSAIC, MACRO, DRCS = 0x42, 0x7C, 0x57, 0x7D, 0x7A, 0x7B
MOST_STEPS = 20_000


class Stop(Exception):
    """The page ends amid a code, or has one that isn't read."""


class Reader:
    """Reads bytes from the front, those of called macros first."""

    def __init__(self, data, eight):
        self.inputs, self.eight, self.steps = [list(reversed(data))], eight, 0
        self.sets, self.half = [PRIMARY, PDI, SUPPLEMENTARY, MOSAIC], {False: 0, True: 1}
        self.macros, self.acts = {}, []

    def peek(self):
        """The next byte, which is not taken."""
        while len(self.inputs) > 1 and not self.inputs[-1]:
            self.inputs.pop()
        return self.inputs[-1][-1] if self.inputs[-1] else None

    def take(self):
        """The next byte."""
        byte = self.peek()
        if byte is None:
            raise Stop("ends")
        self.steps += 1
        if self.steps > MOST_STEPS:
            raise Stop("steps")
        self.inputs[-1].pop()
        return byte

    def read(self):
        """All acts of the page."""
        try:
            while self.peek() is not None:
                self.code(self.take())
        except Stop as stop:
            self.acts.append(("stop", str(stop)))
        return self.acts

    def set_of(self, byte):
        """The set, the half and the code of a byte of characters; nothing of others."""
        if byte is not None and 0x20 <= byte < 0x80:
            return self.sets[self.half[False]], False, byte
        if byte is not None and byte >= 0xA0 and self.eight:
            return self.sets[self.half[True]], True, byte - 0x80
        return None

    def code(self, byte):
        """Reads the code that begins with this byte."""
        if self.set_of(byte):
            kind, half, code = self.set_of(byte)
            return self.of_set(kind, code, half)
        if byte >= 0x80:
            if not self.eight:
                raise Stop("eighth bit")
            return self.control(byte - 0x40)
        if byte in (0x0E, 0x0F):
            self.half[False] = 0x0F - byte
        elif byte in (0x19, 0x1D):
            self.of_set(self.sets[2 if byte == 0x19 else 3], self.argument(), None)
        elif byte == 0x1C:
            self.acts.append(("APS", self.argument(), self.argument()))
        elif byte == 0x1B:
            self.escape(self.take())
        else:
            self.acts.append(("C0", byte))

    def argument(self):
        """The next byte, which has to be a character."""
        byte = self.take()
        if not 0x20 <= byte < 0x80:
            raise Stop("argument")
        return byte

    def of_set(self, kind, code, half):
        """Reads a code of a set."""
        if kind == MACRO:
            self.inputs.append(list(reversed(self.macros.get(code, b""))))
        elif kind != PDI:
            self.acts.append((kind, code))
        elif half is None or code >= 0x40:
            raise Stop("shifted" if half is None else "stray")
        else:
            operands = []
            while self.peek() is not None:
                found = self.set_of(self.peek())
                if not found or found[0] != PDI or found[2] < 0x40:
                    break
                operands.append(found[2])
                self.take()
            self.acts.append(("PDI", code, bytes(operands)))

    def escape(self, byte):
        """Reads what follows ESC."""
        if byte in (0x6E, 0x6F):
            self.half[False] = byte - 0x6C
        elif self.eight and byte in (0x7C, 0x7D, 0x7E):
            self.half[True] = 0x7F - byte
        elif 0x40 <= byte < 0x60:
            self.control(byte)
        elif 0x28 <= byte <= 0x2F:
            final = self.take()
            final = self.take() if final == 0x20 else final
            if final not in (PRIMARY, SUPPLEMENTARY, PDI, MOSAIC, MACRO, DRCS):
                raise Stop("escape")
            self.sets[(byte - 0x28) % 4] = final
        else:
            raise Stop("escape")

    def control(self, code):
        """Reads a control of C1."""
        if code in (0x40, 0x41):
            return self.define(self.argument(), code == 0x41)
        self.acts.append(("C1", code, self.argument() if code in (0x43, 0x44, 0x46) else None))

    def ends(self):
        """The bytes of the next control that ends a body, if there is one."""
        first = self.peek()
        if self.eight and first is not None and 0x80 <= first <= 0x85:
            return 1
        if first != 0x1B:
            return 0
        self.take()
        second = self.peek()
        self.inputs.append([first])
        return 2 if second is not None and 0x40 <= second <= 0x45 else 0

    def define(self, name, presented):
        """Reads the body of a macro."""
        body = bytearray()
        while not self.ends():
            body.append(self.take())
        self.macros[name] = bytes(body)
        if presented:
            pair = [self.take() for _ in range(self.ends())]
            self.inputs.append(pair[::-1] + list(reversed(body)))


def acts(data, eight):
    """What a page does."""
    return Reader(data, eight).read()
