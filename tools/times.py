#!/usr/bin/env python3
"""Turns what the gate printed into docs/TIMES.md: how long the whole took, for each crate its must-fail edits, and how large the house is.

usage: bash .ci/run > LOG; tools/times.py LOG SECONDS 'on what'     (SECONDS: the whole gate; the kit prints none of a crate's own)
"""
import glob, os, re, sys, textwrap

ROOT = os.path.dirname(os.path.dirname(os.path.abspath(__file__)))
if len(sys.argv) != 4:
    sys.exit(__doc__)
log, whole, where = open(sys.argv[1], encoding='utf-8', errors='replace').read(), int(sys.argv[2]), sys.argv[3]
listed = re.findall(r'^(\w+)(?: staticlib)?:', open(os.path.join(ROOT, 'crates.txt'), encoding='utf-8').read(), re.M)
proved = set(re.findall(r'^rt: (\w+) (?:proved|is kept: )', log, re.M))
edits = {}
for crate in re.findall(r'^rt: must-fail (\w+)/[\w.-]+: refused, as it must be', log, re.M):
    edits[crate] = edits.get(crate, 0) + 1

# not written by hand: blank lines, comments, imports, and the names and types of the needs that `rt` asks for (what names `goal.`, brackets, modules)
PRINTED = re.compile(r'$|--|(pub )?use |.*\bgoal\.|[{}()\[\],;]+$|(pub )?mod ')


def written(crate):
    """The hand-written lines of a crate's proofs."""
    files = glob.glob(os.path.join(ROOT, 'crates', crate, 'proofs', '**', '*.antt'), recursive=True)
    return sum(not PRINTED.match(' '.join(line.split())) for f in files for line in open(f, encoding='utf-8'))


last = [l for l in log.split('\n') if re.match(r'\d+ passed, \d+ failed', l)]
said = ('Written by `tools/times.py` from what `bash .ci/run` printed, %s: **%s**, %d s in all (%.0f minutes). What an earlier gate on the same machine passed '
        'is not proved again, and is counted here too. The kit prints no seconds of a crate. Proof lines are those of `proofs/` without blank lines, comments, '
        'imports and the names of what is to be proved.')
out = ['# Times of the gate', ''] + textwrap.wrap(said % (where, last[-1] if last else 'no verdict', whole, whole / 60), 156, break_on_hyphens=False)
out += ['', '| Crate | Edits | Proof lines |', '|---|---|---|']
for c in [c for c in listed if c in proved]:
    out.append('| %s | %d | %d |' % (c, edits.get(c, 0), written(c)))
out.append('| all | %d | %d |' % (sum(edits.values()), sum(map(written, proved))))
missing = [c for c in listed if c not in proved]
if missing:
    out += ['', 'Not in that run: %s.' % ', '.join(missing)]
open(os.path.join(ROOT, 'docs', 'TIMES.md'), 'w', encoding='utf-8').write('\n'.join(out) + '\n')
