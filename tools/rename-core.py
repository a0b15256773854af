#!/usr/bin/env python3
"""Names the crate `core` `rig_core`, since Rattle has a library named core. Run before port.py, at the top of the repository.

Changed are crates.txt, the folder, `use` lines and paths; not the struct Core, nor a variable named core."""
import os
import re
import subprocess

PATHS = [
    (re.compile(r'Rattle·core(?=[.·])'), 'Rattle·rig_core'),  # a path in antt
    (re.compile(r'(?<![\w:.])core::'), 'rig_core::'),  # a path in a source
    (re.compile(r'^(file: crates/)core/'), r'\1rig_core/'),
]


def main():
    with open('crates.txt', encoding='utf-8') as f:
        text = f.read()
    with open('crates.txt', 'w', encoding='utf-8') as f:
        f.write(re.sub(r'(?m)^(?!#).*$', lambda m: re.sub(r'(?<!\S)core(?=[:\s]|$)', 'rig_core', m.group()), text))
    subprocess.run(['git', 'mv', 'crates/core', 'crates/rig_core'], check=True)
    for folder, _, names in os.walk('crates'):
        for name in names:
            if not name.endswith(('.rt', '.antt', '.edit')):
                continue
            path = os.path.join(folder, name)
            with open(path, encoding='utf-8') as f:
                text = f.read()
            new = text
            for old, put in PATHS:
                new = old.sub(put, new)
            if new != text:
                with open(path, 'w', encoding='utf-8') as f:
                    f.write(new)


main()
