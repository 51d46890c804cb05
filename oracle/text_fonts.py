#!/usr/bin/env python3
"""Makes the font files of lb_tests_text in the folder that is given, from the test font: itself, one with a design size that is too
large, one that is cut, and one without bytes."""
import sys
from pathlib import Path


def main():
    folder = Path(sys.argv[1])
    font = (Path(__file__).resolve().parent.parent / 'examples/plain/cmr10.tfm').read_bytes()
    broken = bytearray(font)
    broken[28] = 0x80
    for name, data in [('cmr10', font), ('broken', broken), ('short', font[:203]), ('empty', b'')]:
        (folder / f'fonts-{name}.tfm').write_bytes(data)


main()
