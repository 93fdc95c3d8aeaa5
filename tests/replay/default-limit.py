#!/usr/bin/env python3
"""A frontend without `maxconn` has a limit of 2,000 connections, and its own line is cited."""
import pathlib
import sys

MOST = 2000
OFFER = 'offer 0.{} used 0 line 5 to 10.0.0.20:80 src 192.0.2.5:4000 dst 127.0.0.1:9000 send -\n'


def main():
    file = pathlib.Path(sys.argv[1]) / 'default-limit'
    file.with_suffix('.cfg').write_text(
        'frontend f\nbind 127.0.0.1:9000\ndefault_backend b\nbackend b\nserver s 10.0.0.20:80\n')
    file.with_suffix('.script').write_text('0 accept 0 192.0.2.5:4000 127.0.0.1:9000\n' * (MOST + 1) + 'ask frontend 0\n')
    offers = ''.join(OFFER.format(serial) for serial in range(1, MOST + 1))
    file.with_suffix('.answers').write_text(f'{offers}refuse 0.{MOST + 1} used 0 line 1\ncount {MOST}\n')


if __name__ == '__main__':
    main()
