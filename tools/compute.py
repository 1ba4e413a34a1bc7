#!/usr/bin/env python3
"""The rules are run: the checker computes what they say of record files, of texts of the historian and of filings, and compares with the stored answers.

usage: tools/compute.py [--max BYTES] [--restated FILE].. FILE..      (NAME.rec or NAME.roomN.txt)

Beside each NAME.rec stands a NAME.out with what `account` must print, or a restated.txt has what it prints after a later request. A NAME.rec that has a
NAME.filed beside it is a filing, and its NAME.out has what `checker` must print. Beside each NAME.roomN.txt, a text with N bytes lent for its records, stands a
NAME.roomN.out with number and line, and where that is `0 0` a NAME.roomN.days with the records written.

No code of the account takes part. Each record file becomes one statement, `printed FILE ≡ ANSWER`, and each filing one, `said FILE TEXT ≡ ANSWER`. Each text
becomes two, of what is answered and of the lent bytes afterwards: `answer_of N TEXT ≡ ANSWER` and `buffer_after nearest_by TEXT LENT ≡ BYTES`. All are proved
by refl in throwaway crates of a throwaway repository in the folder for temporary files, which holds copies of the rules and of the other definitions. Larger
files than BYTES (3000) are passed over.
A statement that is refused is named as `disagrees`, one that takes more steps than the checker allows as `no verdict`: a text costs the lines looked at times
the bytes from there on, and 16,000 bytes that are accepted pass. The last line says whether all agree; the exit status is 0 only where they do.
"""
import os, re, shutil, subprocess, sys, tempfile, time

import restated

ROOT = os.path.dirname(os.path.dirname(os.path.abspath(__file__)))
WORK = tempfile.mkdtemp(prefix='compute-')  # outside the repository, as the gate wants no crates.txt below its top
BATCH = 24  # files to a crate: rt checks two crates at a time
FILLER = 170  # what each lent byte holds before the import
HEAD = '''use Prim.Native.Nat.{ℕ, zero, suc, ◌/◌, ◌%◌}
use mathlib.Core.List.{List, [], ◌∷◌}
use mathlib.Core.Path.{◌≡◌, refl}
use lib.ListN.{replicate}
use Rattle.printed.specs.Program.{printed}
use Rattle.printed.specs.Opened.{prints}
use Rattle.import.specs.Computed.{nearest_by}
use Rattle.import.specs.Import.{answer_of, buffer_after}
use Rattle.import.specs.Opened.{texts}
use Rattle.filed.specs.Said.{said}
use Rattle.filed.specs.Opened.{checks}

-- n bytes, the lowest first
unfoldable spread : ℕ → ℕ → List ℕ
spread zero x = []
spread (suc n) x = x % 256 ∷ spread n (x / 256)
'''


def reached(name, deps):
    found = []
    for d in deps[name]:
        found += [x for x in reached(d, deps) if x not in found]
    return found + [name]


def listed():
    deps = {}
    for line in open(os.path.join(ROOT, 'crates.txt'), encoding='utf-8'):
        line = line.split('#')[0].strip()
        if line:
            name, rest = line.split(':')
            deps[name] = rest.split()
    return deps


def write(crate, files):
    """A crate of these files, each a path in it with its text."""
    for path, text in files.items():
        path = os.path.join(WORK, 'crates', crate, path)
        os.makedirs(os.path.dirname(path), exist_ok=True)
        open(path, 'w', encoding='utf-8').write(text)


def definition(crate, parts, deps, lines):
    """Some files of a crate's definitions alone, with the types that it makes public and without the calls that write what is defined."""
    source = lambda path: open(os.path.join(ROOT, 'crates', crate, path), encoding='utf-8').read()
    types = re.findall(r'^pub (?:struct|enum) .*?^}\n', source('src/lib.rt'), re.M | re.S)
    uses = [use for use, name in re.findall(r'^(use (?!crate)\w+::(\w+);\n)', source('src/lib.rt'), re.M) if re.search(r'\b%s\b' % name, ''.join(types))]
    write(crate, {'src/lib.rt': '\n'.join(['// The definition alone.\n'] + uses + types), 'specs/Lib.antt': ''.join('pub mod %s\n' % part for part in parts)})
    write(crate, {'specs/%s.antt' % part: source('specs/%s.antt' % part) for part in parts})
    lines.append('%s: %s' % (crate, deps))
    return crate


def definitions(lines):
    """The crates that have what is computed."""
    deps = listed()
    base = reached('rules', deps)
    for c in base:
        for part in ('src', 'specs', 'proofs'):
            if os.path.isdir(os.path.join(ROOT, 'crates', c, part)):
                shutil.copytree(os.path.join(ROOT, 'crates', c, part), os.path.join(WORK, 'crates', c, part))
        lines.append('%s: %s' % (c, ' '.join(deps[c])))
    base.append(definition('text', ['Numbers', 'Line', 'Opened'], 'law rules', lines))
    base.append(definition('printed', ['Program', 'Opened'], 'law rules text', lines))
    base.append(definition('import', ['Line', 'Nearest', 'Computed', 'Import', 'Opened'], 'law field reading rules', lines))
    base.append(definition('filing', ['Filing', 'Opened'], 'law rules', lines))
    base.append(definition('filed', ['Filed', 'Said', 'Opened'], 'law rules text filing', lines))
    return base


def spread(b):
    return 'spread %d 0x%x' % (len(b), int.from_bytes(b, 'little'))


def of_records(f, later):
    """What is printed for a record file."""
    return [('', 'printed (%s)' % spread(open(f, 'rb').read()), spread(restated.answer(f, later)[0]), 'prints')]


def of_filing(f):
    """What is said of a filing."""
    file, text, answer = (spread(open(f[:-4] + end, 'rb').read()) for end in ('.rec', '.filed', '.out'))
    return [('', 'said (%s) (%s)' % (file, text), answer, 'checks')]


def of_text(f):
    """What is answered of a text, and what the lent bytes hold then: the records and what was there behind them, or zeros after a refusal."""
    lent, text = int(re.search(r'\.room(\d+)\.txt$', f).group(1)), spread(open(f, 'rb').read())
    number, line = open(f[:-4] + '.out').read().split()
    days = open(f[:-4] + '.days', 'rb').read() if number == '0' else b''
    after = days + bytes([FILLER]) * (lent - len(days)) if number == '0' else bytes(lent)
    answer = 'record { number = %s; line = %s; count = %d }' % (number, line, len(days))
    return [(', the answer', 'answer_of %d (%s)' % (lent, text), answer, 'texts'),
            (', the lent bytes', 'buffer_after nearest_by (%s) (replicate %d %d)' % (text, lent, FILLER), spread(after), 'texts')]


def statements(f, later):
    """A part's name, both sides, and what is opened."""
    if f.endswith('.txt'):
        return of_text(f)
    return of_filing(f) if os.path.exists(f[:-4] + '.filed') else of_records(f, later)


def module(files, later):
    out = [HEAD]
    for i, f in enumerate(files):
        for j, (part, left, right, opened) in enumerate(statements(f, later)):
            name = 'f%d-%d' % (i, j)
            out += ['-- ' + os.path.basename(f) + part, '%s : %s ≡ %s' % (name, left, right), 'unfolding spread ' + opened, name + ' = refl', '']
    return '\n'.join(out)


def tell(log):
    """Which statements the checker refuses, and of which it cannot tell."""
    crate = ''
    for line in log.split('\n'):
        if line.startswith('== '):
            crate = line[3:].split()[0]
        m = re.match(r'.*proofs/Computed\.antt:(\d+):\d+: error(.*)', line)
        if m and crate.startswith('computed'):
            text = open(os.path.join(WORK, 'crates', crate, 'proofs', 'Computed.antt'), encoding='utf-8').read().split('\n')
            at = int(m.group(1)) - 1
            while at > 0 and not text[at].startswith('-- '):
                at -= 1
            print('no verdict:' if 'step limit' in m.group(2) else 'disagrees:', text[at][3:])
        elif 'error' in line:
            print(line[:400])


def main(args):
    most, files, texts = 3000, [], []
    while args:
        a = args.pop(0)
        if a == '--max':
            most = int(args.pop(0))
        elif a == '--restated':
            texts.append(args.pop(0))
        else:
            files.append(a)
    given = len(files)
    files = [f for f in files if os.path.getsize(f) <= most]
    if not files:
        sys.exit(__doc__)
    later = restated.read(texts)
    os.makedirs(os.path.join(WORK, 'crates'))
    lines, made = [], []
    base = definitions(lines)
    for k in range(0, len(files), BATCH):
        made.append('computed%d' % (k // BATCH))
        write(made[-1], {'src/lib.rt': '// Computed.\n', 'proofs/Lib.antt': 'pub mod Computed\n', 'proofs/Computed.antt': module(files[k:k + BATCH], later)})
        lines.append('%s: %s' % (made[-1], ' '.join(base)))
    open(os.path.join(WORK, 'crates.txt'), 'w').write('\n'.join(lines) + '\n')
    start = time.time()
    r = subprocess.run(['rt', 'all', 'check'], cwd=WORK, capture_output=True, text=True)
    tell(r.stdout + r.stderr)
    print('%d files tried in %.0f s and %d larger ones passed over: %s'
          % (len(files), time.time() - start, given - len(files), 'all agree' if r.returncode == 0 else 'NOT all agree'))
    return r.returncode


try:
    status = main(sys.argv[1:])
finally:
    shutil.rmtree(WORK, ignore_errors=True)
sys.exit(status)
