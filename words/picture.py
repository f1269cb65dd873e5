"""A grey picture with small letters, written as PNG."""
import struct
import zlib

BLACK, WHITE = 0, 15

# Letters of 3 by 5 dots, a digit for each row from above, drawn twice as large.
LETTERS = {
    'a': '25755', 'b': '65656', 'c': '34443', 'd': '65556', 'e': '74647', 'f': '74644', 'g': '34553', 'h': '55755', 'i': '72227',
    'j': '11152', 'k': '55655', 'l': '44447', 'm': '57755', 'n': '65555', 'o': '25552', 'p': '65644', 'q': '25573', 'r': '65655',
    's': '34216', 't': '72222', 'u': '55557', 'v': '55552', 'w': '55775', 'x': '55255', 'y': '55222', 'z': '71247', '0': '75557',
    '1': '26227', '2': '71747', '3': '71717', '4': '55711', '5': '74717', '6': '74757', '7': '71122', '8': '75757', '9': '75717',
    '.': '00002', '-': '00700',
}
SIZE = 2
ADVANCE, HEIGHT = 4 * SIZE, 5 * SIZE


class Picture:
    def __init__(self, width, height):
        self.rows = [bytearray([WHITE] * width) for _ in range(height)]

    def dot(self, x, y, grey):
        self.rows[y][x] = grey

    def box(self, x, y, width, height, grey):
        for row in self.rows[y:y + height]:
            row[x:x + width] = bytes([grey] * len(row[x:x + width]))

    def text(self, x, y, letters):
        """A sign that has no letter here leaves a blank."""
        for n, letter in enumerate(letters.lower()):
            for down, bits in enumerate(LETTERS.get(letter, '')):
                for right in range(3):
                    if int(bits) & 4 >> right:
                        self.box(x + n * ADVANCE + right * SIZE, y + down * SIZE, SIZE, SIZE, BLACK)

    def save(self, path):
        """16 greys, two dots in a byte, as PNG has them."""
        packed = b''.join(b'\0' + bytes(a << 4 | b for a, b in zip(row[::2], row[1::2] + b'\0')) for row in self.rows)
        header = struct.pack('>IIBBBBB', len(self.rows[0]), len(self.rows), 4, 0, 0, 0, 0)
        with open(path, 'wb') as file:
            file.write(b'\x89PNG\r\n\x1a\n' + chunk(b'IHDR', header) + chunk(b'IDAT', zlib.compress(packed, 9)) + chunk(b'IEND', b''))


def chunk(kind, data):
    return struct.pack('>I', len(data)) + kind + data + struct.pack('>I', zlib.crc32(kind + data))
