#!/usr/bin/env python3
"""Runs ./segments over the scripts of crates/seg_cases/data that are refused, and over folders that are full, empty or damaged, and
looks at both lines on standard error: the program's own, and that of ./segments, which has to say the cause in words with its
numbers, and to name a section that is there. Every cause in crates/seg_values/src/error.rt has to have words.

The program is to be built (any run of ./segments). The status is 1 where a line isn't as it should be.
"""
import re
import subprocess
import sys
import tempfile
from pathlib import Path

TOP = Path(__file__).resolve().parent.parent
DATA = TOP / 'crates' / 'seg_cases' / 'data'
NAMES = {2: 'Words', 3: 'Script', 4: 'Refused', 5: 'Exists', 6: 'Directory', 7: 'Damaged', 8: 'Stream'}
CITED = re.compile(r'\(docs/(\w+)\.md, "([^"]+)"\)$')
faults = []


def run(folder, words, script=b''):
    done = subprocess.run([TOP / 'segments', '--in', folder, *words], input=script, stdout=subprocess.PIPE, stderr=subprocess.PIPE)
    return done.returncode, done.stdout, done.stderr.decode().splitlines()


def check(label, done, status, line, words=()):
    """The status, the program's line, and what the second line has to hold."""
    code, text, lines = done
    told = [line] if line else []
    if code != status or text or lines[:-1] != told or not lines[-1].startswith(f'segments: {NAMES[status]} ({status}): '):
        faults.append(f'{label}: {code} {lines}')
        return
    second = lines[-1]
    for word in words:
        if word not in second:
            faults.append(f'{label}: no {word!r} in {second}')
    cited = CITED.search(second)
    if not cited and status in (4, 7) and 'no meta.json' not in second:
        faults.append(f'{label}: no section in {second}')
    if cited and not re.search(rf'^#+ `?{re.escape(cited[2])}`?$', (TOP / 'docs' / f'{cited[1]}.md').read_text(), re.M):
        faults.append(f'{label}: docs/{cited[1]}.md has no section {cited[2]}')


def refused_scripts():
    """The scripts that a first build refuses, with their status and line."""
    for expected in sorted(DATA.glob('*/*.status')):
        script = expected.with_suffix('.json')
        status, *line = expected.read_text().splitlines()
        words = expected.with_suffix('.words')
        is_build = not words.exists() or words.read_text().split()[0] == 'build'
        if script.exists() and status == '4' and is_build and not re.search(r'\.\d+$', expected.stem):
            yield f'{expected.parent.name}/{expected.stem}', script, line[0]


def folders(top):
    script = (DATA / 'examples' / 'deletes.json').read_bytes()
    folder = top / 'folder'
    check('no index', run(folder, ['show']), 7, 'damaged: meta.json', ['no meta.json'])
    check('no script', run(folder, ['build']), 3, 'script: not a valid script')
    assert run(folder, ['build'], script)[0] == 0
    check('full', run(folder, ['build'], script), 5, 'exists: a directory is not empty', ['work and out'])
    check('full for generate', run(folder, ['generate', '7']), 5, 'exists: a directory is not empty', ['work and out'])
    check('full out', run(folder, ['merge']), 5, 'exists: a directory is not empty', ['in out;'])
    for part in 'term', 'idx', 'pos', 'fieldnorm', 'fast', 'store':
        file = next((folder / 'work').glob(f'*1.{part}'))
        kept = file.read_bytes()
        file.write_bytes(kept + b'x')
        check(f'{part} changed', run(folder, ['show']), 7, f'damaged: {file.name}', [file.name, "isn't whole"])
        file.unlink()
        check(f'{part} gone', run(folder, ['show']), 7, f'damaged: {file.name}', [file.name, "isn't there"])
        file.write_bytes(kept)
    (folder / 'work' / 'meta.json').write_text('{}')
    check('no meta', run(folder, ['show']), 7, 'damaged: meta.json', ["isn't whole"])
    first = (DATA / 'merge' / 'no_segments.json').read_bytes()
    folder = top / 'no segments'
    run(folder, ['build'], first)
    check('no segments', run(folder, ['merge']), 4, 'refused: NoSegments', ['no segment'])
    for words in (['bulid'], ['build', '--fast'], ['build', 'x.json'], ['show', '--in', 'x'], ['--full', 'build'], ['merge', 'merge'],
                  ['generate'], ['generate', '07'], ['generate', '4294967296']):
        check(words, run(folder, words), 2, '', [' '.join(words)])


def main():
    source = (TOP / 'crates' / 'seg_values' / 'src' / 'error.rt').read_text()
    causes = [cause for kind in ('SchemaCause', 'ArgumentCause')
              for cause in re.findall(r'^    (\w+)', re.search(rf'pub enum {kind} {{\n(.*?)^}}', source, re.M | re.S)[1], re.M)]
    wrapper = (TOP / 'segments').read_text()
    faults.extend(f'{cause} has no words' for cause in causes if not re.search(rf'^        {cause}\)', wrapper, re.M))
    seen = set()
    with tempfile.TemporaryDirectory() as top:
        top = Path(top)
        for at, (label, script, line) in enumerate(refused_scripts()):
            name, *numbers = line.removeprefix('refused: ').split()
            seen.add(name)
            words = [f'operation {numbers[0]} '] if numbers and name != 'Tokenizer' else [f'field {number} ' for number in numbers]
            words += [f'field {number} (' for number in numbers[1:]]
            check(label, run(top / str(at), ['build'], script.read_bytes()), 4, line, words)
        folders(top)
    print('\n'.join(faults) or f'every line is right; {len(causes)} causes have words, and scripts came to {len(seen)} of them')
    sys.exit(bool(faults))


if __name__ == '__main__':
    main()
