#!/usr/bin/env python3
"""Puts `#![tactic(auto)]` in each crate's lib.rt or main.rt that lacks it: behind the leading comment, before the first item."""
import glob
import os

os.chdir(os.path.join(os.path.dirname(os.path.abspath(__file__)), '..'))
LINE = '#![tactic(auto)]'
for file in sorted(glob.glob('crates/*/src/lib.rt') + glob.glob('crates/*/src/main.rt')):
    with open(file, encoding='utf-8') as f:
        lines = f.read().split('\n')
    if LINE in lines:
        continue
    at = 0
    while at < len(lines) and lines[at].startswith('//'):
        at += 1
    while at < len(lines) and not lines[at]:
        at += 1
    lines[at:at] = [LINE, '']
    with open(file, 'w', encoding='utf-8') as f:
        f.write('\n'.join(lines))
    print(file)
