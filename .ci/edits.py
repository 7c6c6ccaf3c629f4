"""Wrong bodies as files: an edit is a text file with a line `file: PATH` and, below it, pairs of lines `old: TEXT` and
`new: TEXT`. Each old text occurs exactly once in its file. Lines with other words say what the edit has to lead to."""
import os, shutil


class Edit:
    """An edit of a crate's files: its path, its crate, the other words of its file, and the places, old texts and new ones."""

    def __init__(self, path):
        self.path, self.crate, self.words, self.changes = path, path.split('/')[-3], {}, []
        self.name = f'{self.crate}/{os.path.basename(path)}'
        place = old = None
        with open(path) as file:
            lines = file.read().splitlines()
        for line in lines:
            word, _, text = line.partition(':')
            text = text.removeprefix(' ')
            if word == 'file':
                place = text.strip()
            elif word == 'old':
                old = text
            elif word == 'new' and place and old:
                self.changes.append((place, old, text))
            elif line.strip():
                self.words[word] = text.strip()

    def lines_of(self, folder):
        """Returns the lines that the edit changes, each as a file and a number from 0 on, and says why it doesn't fit if an old text
        doesn't occur once."""
        found = set()
        for place, old, _ in self.changes:
            with open(f'{folder}/{place}') as file:
                text = file.read()
            if text.count(old) != 1:
                raise ValueError(f'its old text occurs {text.count(old)} times in {place}: {old}')
            found.add((place, text[:text.index(old)].count('\n')))
        if not found:
            raise ValueError('it has no line `file:` with pairs of lines `old:` and `new:` below')
        return found

    def apply(self, folder):
        """Makes the edit in a folder of the crate."""
        for place, old, new in self.changes:
            with open(f'{folder}/{place}') as file:
                text = file.read()
            with open(f'{folder}/{place}', 'w') as file:
                file.write(text.replace(old, new, 1))


def copy_sources(crate, to):
    """Copies what a check reads of a crate: its sources, its definitions and its proofs."""
    for part in ('src', 'specs', 'proofs'):
        if os.path.isdir(f'crates/{crate}/{part}'):
            shutil.copytree(f'crates/{crate}/{part}', f'{to}/{part}')
