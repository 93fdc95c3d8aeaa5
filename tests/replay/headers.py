#!/usr/bin/env python3
"""Headers that are long to write out: cut at every place, each fault at its byte, blocks and pieces of all lengths.

Each run is a list of pairs, a line of the script and the line that answers it."""
import pathlib
import sys

CONFIG = """frontend web
bind 127.0.0.1:8080 accept-proxy
default_backend app
backend app
server s1 10.0.0.11:443
"""
REAL = 'src 10.1.1.1:5000 dst 127.0.0.1:8080'
FOUR = 'src 203.0.113.7:4000 dst 198.51.100.1:443'
SIX = 'src [2001:db8::1]:4000 dst [2001:db8::2]:443'
SIGNATURE = b'\r\n\r\n\0\r\nQUIT\n'
BLOCK_OF_FOUR = bytes([203, 0, 113, 7, 198, 51, 100, 1]) + (4000).to_bytes(2, 'big') + (443).to_bytes(2, 'big')
BLOCK_OF_SIX = b''.join(bytes.fromhex('20010db8') + bytes(11) + bytes([last]) for last in (1, 2)) + BLOCK_OF_FOUR[8:]
LONGEST = 107
PIECE = 65536


def second(command, family, block, length=None):
    """A header of version 2."""
    return SIGNATURE + bytes([command, family]) + (len(block) if length is None else length).to_bytes(2, 'big') + block


HEADERS = {
    'version 1 of IPv4': (b'PROXY TCP4 203.0.113.7 198.51.100.1 4000 443\r\n', FOUR),
    'version 1 of IPv6': (b'PROXY TCP6 2001:db8::1 2001:db8::2 4000 443\r\n', SIX),
    'version 1 of an unknown protocol': (b'PROXY UNKNOWN\r\n', REAL),
    'version 2 of IPv4': (second(0x21, 0x11, BLOCK_OF_FOUR), FOUR),
    'version 2 of IPv6': (second(0x21, 0x21, BLOCK_OF_SIX), SIX),
    'version 2 with a field after the pair': (second(0x21, 0x11, BLOCK_OF_FOUR + b'\4\0\2\n\v'), FOUR),
    'version 2 of itself': (second(0x20, 0xff, b'\1\2\3'), REAL),
}

# More headers, and the pair that is judged.
MORE_HEADERS = [
    (b'PROXY UNKNOWN ' + b'x' * 91 + b'\r\n', REAL),
    (b'PROXY UNKNOWN \r\n', REAL),
    (b'PROXY UNKNOWN ' + b'ffff:' * 7 + b'ffff ' + b'ffff:' * 7 + b'ffff 65535 65535\r\n', REAL),
    # the greatest line of IPv4, and the example, of proxy-protocol.txt, section 2.1
    (b'PROXY TCP4 255.255.255.255 255.255.255.255 65535 65535\r\n', 'src 255.255.255.255:65535 dst 255.255.255.255:65535'),
    (b'PROXY TCP4 192.168.0.1 192.168.0.11 56324 443\r\n', 'src 192.168.0.1:56324 dst 192.168.0.11:443'),
    (b'PROXY TCP6 ::1 ::FFFF:1.2.3.4 1 0\r\n', 'src [::1]:1 dst [::ffff:102:304]:0'),
    (b'PROXY UNKNOWN  TCP4 1.2.3.4\r\n', REAL),
    (b'PROXY UNKNOWN \r\r\n', REAL),
    (b'PROXY TCP6 ' + b'ffff:' * 7 + b'ffff ' + b'ffff:' * 7 + b'ffff 65535 65535\r\n',
     'src [ffff:ffff:ffff:ffff:ffff:ffff:ffff:ffff]:65535 dst [ffff:ffff:ffff:ffff:ffff:ffff:ffff:ffff]:65535'),
    (b'PROXY TCP4 0.0.0.0 255.255.255.255 0 65535\r\n', 'src 0.0.0.0:0 dst 255.255.255.255:65535'),
    (b'PROXY TCP6 2001:DB8:0:0:0:0:0:1 ::1.2.3.4 1 2\r\n', 'src [2001:db8::1]:1 dst [::102:304]:2'),
    (second(0x20, 0x00, b''), REAL),
    (second(0x20, 0x11, b''), REAL),
    (second(0x20, 0xff, b'abc'), REAL),
    (second(0x21, 0x31, b'abc'), REAL),
    (second(0x20, 0x11, BLOCK_OF_FOUR), REAL),
    (second(0x21, 0x00, b''), REAL),
    (second(0x21, 0x10, BLOCK_OF_FOUR), REAL),
    (second(0x21, 0x12, BLOCK_OF_FOUR), REAL),
    (second(0x21, 0x22, BLOCK_OF_SIX), REAL),
    (second(0x21, 0x31, b'/' * 216), REAL),
    (second(0x21, 0x32, b''), REAL),
    (second(0x21, 0x21, BLOCK_OF_SIX + b'\0' * 300), SIX),
]

# Bytes, the fault, and the byte at which it is found.
FAULTS = [
    *((b'PROXY '[:count] + b'!', 'NotProxy', count + 1) for count in range(6)),
    *((SIGNATURE[:count] + b'!', 'NotProxy', count + 1) for count in range(12)),
    (b'PROXY\r\n', 'NotProxy', 6),
    (b'GET / HTTP/1.1\r\n', 'NotProxy', 1),
    (b'\n', 'NotProxy', 1),
    (b'proxy UNKNOWN\r\n', 'NotProxy', 1),
    (b'PROXy ', 'NotProxy', 5),
    (SIGNATURE[:11] + b'\r', 'NotProxy', 12),
    (b'PROXY UNKNOWN ' + b'x' * 93, 'TooLong', 107),
    (b'PROXY UNKNOWN ' + b'x' * 92 + b'\r\n', 'TooLong', 107),
    (b'PROXY TCP4 1.2.3.4 5.6.7.8 4000 443\n' + b'\n' * 71, 'TooLong', 107),
    (b'PROXY \r\n', 'BadLine', 8),
    (b'PROXY  UNKNOWN\r\n', 'BadLine', 16),
    (b'PROXY UNKNOWN\r\r\n', 'BadLine', 16),
    (b'PROXY UNKNOWN4\r\n', 'BadLine', 16),
    (b'PROXY UDP4 1.2.3.4 5.6.7.8 4000 443\r\n', 'BadLine', 37),
    (b'PROXY TCP4\t1.2.3.4 5.6.7.8 4000 443\r\n', 'BadLine', 37),
    (b'PROXY TCP4 1.2.3.4  5.6.7.8 4000 443\r\n', 'BadLine', 38),
    (b'PROXY unknown\r\n', 'BadLine', 15),
    (b'PROXY UNKNOWNX\r\n', 'BadLine', 16),
    (b'PROXY TCP5 1.2.3.4 5.6.7.8 4000 443\r\n', 'BadLine', 37),
    (b'PROXY TCP4\r\n', 'BadLine', 12),
    (b'PROXY TCP4 1.2.3.4 5.6.7.8 4000\r\n', 'BadLine', 33),
    (b'PROXY TCP4 1.2.3.4 5.6.7.8 4000 443 \r\n', 'BadLine', 38),
    (b'PROXY TCP4 1.2.3.4 5.6.7.8 4000 443 9\r\n', 'BadLine', 39),
    (b'PROXY TCP4  1.2.3.4 5.6.7.8 4000 443\r\n', 'BadLine', 38),
    (b'PROXY TCP4 1.2.3.256 5.6.7.8 4000 443\r\n', 'BadAddress', 39),
    (b'PROXY TCP4 1.2.3.4 5.6.7 4000 443\r\n', 'BadAddress', 35),
    (b'PROXY TCP4 ::1 5.6.7.8 4000 443\r\n', 'BadAddress', 33),
    (b'PROXY TCP4 01.2.3.4 5.6.7.8 4000 443\r\n', 'BadAddress', 38),
    (b'PROXY TCP4 1.2.3.4 5.6.7.08 04000 443\r\n', 'BadAddress', 39),
    (b'PROXY TCP6 1.2.3.4 5.6.7.8 4000 443\r\n', 'BadAddress', 37),
    (b'PROXY TCP6 ::1 5.6.7.8 4000 443\r\n', 'BadAddress', 33),
    (b'PROXY TCP4 1.2.3.04 5.6.7.8 04000 443\r\n', 'BadAddress', 39),
    (b'PROXY TCP4 1.2.3.4 5.6.7.8 04000 443\r\n', 'BadPort', 38),
    (b'PROXY TCP4 1.2.3.4 5.6.7.8 4000 65536\r\n', 'BadPort', 39),
    (b'PROXY TCP4 1.2.3.4 5.6.7.8 4000 +443\r\n', 'BadPort', 38),
    (b'PROXY TCP4 1.2.3.4 5.6.7.8 4000 443\r\r\n', 'BadPort', 38),
    (SIGNATURE + b'\x11', 'BadVersion', 13),
    (SIGNATURE + b'\x30', 'BadVersion', 13),
    (SIGNATURE + b'\x22', 'BadCommand', 13),
    (SIGNATURE + b'\x2f', 'BadCommand', 13),
    (SIGNATURE + b'\x21\x41', 'BadFamily', 14),
    (SIGNATURE + b'\x21\x13', 'BadFamily', 14),
    (SIGNATURE + b'\x21\xff', 'BadFamily', 14),
    (SIGNATURE + b'\x21\x11\x00\x0b', 'ShortBlock', 16),
    (SIGNATURE + b'\x21\x11\x00\x00', 'ShortBlock', 16),
    (SIGNATURE + b'\x21\x21\x00\x23', 'ShortBlock', 16),
]


class Run:
    """Connections one after the other, each with the pieces of its header."""

    def __init__(self):
        self.script, self.answers, self.serial, self.status = [], [], 0, 0

    def accept(self):
        self.serial += 1
        self.script.append('0 accept 0 10.1.1.1:5000 127.0.0.1:8080')
        self.answers.append(f'wait 0.{self.serial} used 0')

    def piece(self, piece, answer):
        self.script.append(f'0 piece 0.{self.serial} {piece.hex() or "-"}')
        self.answers.append(answer)

    def waits(self, piece):
        self.piece(piece, f'wait 0.{self.serial} used {len(piece)}')

    def is_offered(self, piece, used, pair):
        self.piece(piece, f'offer 0.{self.serial} used {used} line 5 to 10.0.0.11:443 {pair} send -')
        self.close()

    def close(self):
        self.script.append(f'0 close 0.{self.serial} done')
        self.answers.append(f'closed 0.{self.serial} done')

    def is_refused(self, piece, used, fault):
        self.piece(piece, f'refuse 0.{self.serial} used {used} header {fault}')

    def write(self, room, name):
        file = pathlib.Path(room, f'headers-{name}')
        file.with_suffix('.cfg').write_text(CONFIG)
        file.with_suffix('.status').write_text(f'{self.status}\n')
        for suffix, lines in (('.script', self.script), ('.answers', self.answers)):
            file.with_suffix(suffix).write_text(''.join(line + '\n' for line in lines))


def cut_in_two():
    """Each header cut in two at every place, with payload after it."""
    run = Run()
    for header, pair in HEADERS.values():
        for at in range(len(header)):
            run.accept()
            run.waits(header[:at])
            run.is_offered(header[at:] + b'hello', len(header) - at, pair)
    return run


def byte_by_byte():
    """Each header byte by byte, with an empty piece before each."""
    run = Run()
    for header, pair in [*HEADERS.values(), *MORE_HEADERS]:
        run.accept()
        for byte in header[:-1]:
            run.waits(b'')
            run.waits(bytes([byte]))
        run.is_offered(header[-1:], 1, pair)
    return run


def whole():
    """Headers in one piece, alone and with payload after them."""
    run = Run()
    for header, pair in [*HEADERS.values(), *MORE_HEADERS]:
        for payload in (b'', b'\r\n', header):
            run.accept()
            run.is_offered(header + payload, len(header), pair)
    return run


def faults():
    """Each fault: all bytes in one piece with more after them, and the deciding byte alone."""
    run = Run()
    for header, fault, at in FAULTS:
        run.accept()
        run.is_refused(header + b'more\r\n', at, fault)
        run.accept()
        run.waits(header[:at - 1])
        run.is_refused(header[at - 1:], 1, fault)
    return run


def lines_of_each_length():
    """Lines that declare nothing and have no end yet: they wait until the greatest length."""
    run = Run()
    for length in range(15, 120):
        line = b'PROXY UNKNOWN '.ljust(length, b'x')
        for pieces in ([line], [line[at:at + 1] for at in range(min(length, LONGEST))]):
            run.accept()
            for piece in pieces[:-1]:
                run.waits(piece)
            if length < LONGEST:
                run.waits(pieces[-1])
                run.close()
            else:
                run.is_refused(pieces[-1], LONGEST - len(b''.join(pieces[:-1])), 'TooLong')
    return run


def commands_and_families():
    """All pairs of bytes 13 and 14, with an empty block, by the table of proxy-protocol.txt, section 2.2."""
    run = Run()
    for command in range(256):
        for family in range(256):
            header = second(command, family, b'')
            run.accept()
            if command >> 4 != 2:
                run.is_refused(header, 13, 'BadVersion')
            elif command & 15 > 1:
                run.is_refused(header, 13, 'BadCommand')
            elif command & 15 == 0:
                run.is_offered(header, 16, REAL)
            elif family >> 4 > 3 or family & 15 > 2:
                run.is_refused(header, 14, 'BadFamily')
            elif family in (0x11, 0x21):
                run.is_refused(header, 16, 'ShortBlock')
            else:
                run.is_offered(header, 16, REAL)
    return run


def greatest_block():
    """A block of the greatest length, with its pair or skipped, in pieces of several lengths."""
    run = Run()
    block = BLOCK_OF_FOUR + b'\7' * (65535 - len(BLOCK_OF_FOUR))
    for command, pair in ((0x21, FOUR), (0x20, REAL)):
        header = second(command, 0x11, block)
        for size in (1, 20, 1460, 65536):
            run.accept()
            pieces = [header[at:at + size] for at in range(0, len(header), size)]
            for piece in pieces[:-1]:
                run.waits(piece)
            run.is_offered(pieces[-1] + b'PROXY', len(pieces[-1]), pair)
    return run


def long_pieces():
    """Pieces of the greatest length, with the header in front, and inside a block of the greatest length."""
    run = Run()
    for header, pair in HEADERS.values():
        run.accept()
        run.is_offered(header + b'\r' * (PIECE - len(header)), len(header), pair)
    block = BLOCK_OF_FOUR + bytes(65535 - len(BLOCK_OF_FOUR))
    run.accept()
    run.waits(second(0x21, 0x11, block)[:16])
    run.is_offered(block, len(block), FOUR)
    run.accept()
    run.waits(second(0x20, 0x11, block)[:16])
    run.waits(block[:-1])
    run.is_offered(block[-1:] * PIECE, 1, REAL)
    run.accept()
    run.is_refused(b'PROXY UNKNOWN' + b' ' * (PIECE - 13), LONGEST, 'TooLong')
    return run


def too_long():
    """A piece of one byte more than is taken ends the run."""
    run = Run()
    run.accept()
    run.waits(b'P')
    run.script.append(f'0 piece 0.1 {"00" * (PIECE + 1)}')
    run.status = 1
    return run


def main():
    for make in (cut_in_two, byte_by_byte, whole, faults, lines_of_each_length, commands_and_families, greatest_block,
                 long_pieces, too_long):
        make().write(sys.argv[1], make.__name__.replace('_', '-'))


if __name__ == '__main__':
    main()
