"""What `account` prints for a stored file: the answer beside it, or the one that a later request's restated.txt has for it."""
import os


def read(files):
    """Of each FOLDER/NAME.rec its answer after the last of the requests: a line of restated.txt has ` | ` for the end of a line."""
    later = {}
    for f in files:
        for line in open(f, encoding='ascii'):
            name, text = line.rstrip('\n').split(': ', 1)
            later[name] = (text.replace(' | ', '\n') + '\n').encode()
    return later


def answer(rec, later):
    """What is printed for the file rec now, and whether a request moved it."""
    folder, name = os.path.split(os.path.abspath(rec))
    own = open(rec[:-4] + '.out', 'rb').read()
    now = later.get(os.path.basename(folder) + '/' + name, own)
    return now, now != own
