#!/usr/bin/env python3
"""Gathers record files and their answers into the corpus that the program `vectors` is run on: crates/vectors/stdin and stdout.

usage: tools/corpus.py FOLDER..      (each with NAME.rec and NAME.out, in the order in which their requests landed)

A file is framed by its length in four bytes before it, little-endian. Its answer is what the program prints, NAME.out, or what the last folder that restates
it has: restated.txt, a line FOLDER/NAME.rec: ANSWER with ` | ` for the end of a line. Of a file over 65,536 bytes the library's own answer follows,
samples/NAME.library, from the independent reference under rust/.
"""
import glob, os, struct, sys

import restated

ROOT = os.path.dirname(os.path.dirname(os.path.abspath(__file__)))
HERE = os.path.join(ROOT, 'crates', 'vectors')
if not sys.argv[1:]:
    sys.exit(__doc__)
later = restated.read(f for folder in sys.argv[1:] for f in glob.glob(os.path.join(folder, 'restated.txt')))
asked = told = b''
count = moved = 0
for folder in sys.argv[1:]:
    for f in sorted(glob.glob(os.path.join(folder, '*.rec'))):
        x = open(f, 'rb').read()
        asked += struct.pack('<I', len(x)) + x
        answer, otherwise = restated.answer(f, later)
        told += answer
        if len(x) > 65_536:
            told += open(os.path.join(ROOT, 'samples', os.path.basename(f)[:-4] + '.library'), 'rb').read()
        count += 1
        moved += otherwise
open(os.path.join(HERE, 'stdin'), 'wb').write(asked)
open(os.path.join(HERE, 'stdout'), 'wb').write(told)
print('%d files, %d bytes; %d answers restated otherwise by a later request' % (count, len(asked), moved))
