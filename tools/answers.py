#!/usr/bin/env python3
"""Names the answers of a crate's proofs that the check finds without them: tools/answers.py CRATE, in a clone that may be changed.

All answers of the functions not yet judged are taken out at once. The check then names the goals that it does not find alone; functions
that wait for a callee are judged in the next round. In the end the answers that were not named are out of the files, the others are back,
and the crate is checked once more. Answers that another answer cites may have to be put back by hand: git diff shows them."""
import re
import subprocess
import sys
from pathlib import Path

top = Path(__file__).resolve().parent.parent


def check(folder):
    run = subprocess.run(['rt', 'check'], cwd=folder, capture_output=True, text=True)
    return run.stdout + run.stderr


def function(path, proofs):
    return '::'.join(path.relative_to(proofs).parent.parts)


def parts(text):
    found = re.split(r'(?m)^(?=pub |[A-Za-z_][\w\-]* : )', text)
    return found[0], found[1:]


def judge(out, crate, files, proofs):
    """Which goals the check asks for, of each file of answers that it has come to."""
    asked = {}
    for name, path, goals in re.findall(r'fn ' + crate + r'::(\S+): no proof: expected answers in (\S+); `search` did not prove (.*)', out):
        asked[path] = re.findall(r'`([^`]+)`', goals.split('; it calls')[0])
    proved = set(re.findall(r'fn ' + crate + r'::(\S+): proved', out))
    for path in files:
        name = './proofs/' + str(path.relative_to(proofs))
        if name in asked:
            yield path, asked[name]
        elif function(path, proofs) in proved:
            yield path, []


def write(path, text):
    path.parent.mkdir(parents=True, exist_ok=True)
    path.write_text(text)


def main():
    crate = sys.argv[1]
    folder = top / 'crates' / crate
    proofs = folder / 'proofs'
    files = {path: path.read_text() for path in sorted(proofs.rglob('Answers.antt'))}
    judged = {}
    while len(judged) < len(files):
        for path, text in files.items():
            if path in judged:
                write(path, text)
            else:
                path.unlink(missing_ok=True)
        new = dict(judge(check(folder), crate, [path for path in files if path not in judged], proofs))
        judged.update(new)
        print(f'{len(judged)} of {len(files)} files judged', flush=True)
        if not new:
            break
    for path, text in files.items():
        write(path, text)
        head, blocks = parts(text)
        needed = judged.get(path)
        if needed is None:
            print('not judged:', function(path, proofs))
            continue
        kept = []
        for block in blocks:
            name = re.match(r'pub ([\w\-+]+) : goal\.', block)
            if name and not any(goal == name.group(1) or goal.startswith(name.group(1) + '-clause') for goal in needed):
                print('found alone:', function(path, proofs), name.group(1))
            else:
                kept.append(block)
        if any(': goal.' in block for block in kept):
            write(path, head + ''.join(kept))
        else:
            path.unlink()
    print([line for line in check(folder).split('\n') if line.startswith('logic=')][-1:])


main()
