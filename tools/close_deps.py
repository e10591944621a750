#!/usr/bin/env python3
"""Rewrites crates.txt so that each crate lists every library below it, lowest first."""
lines = [l.rstrip('\n') for l in open('crates.txt')]
order, deps = [], {}
for line in lines:
    name, rest = line.split(':')
    order.append(name)
    deps[name] = rest.split()
outside = []
for name in order:
    outside += [d for d in deps[name] if d not in deps and d not in outside]
def below(name, seen):
    for d in deps.get(name, []):
        if d not in seen:
            seen.add(d)
            below(d, seen)
    return seen
rank = {n: i for i, n in enumerate(outside + order)}
with open('crates.txt', 'w') as f:
    for name in order:
        all_below = sorted(below(name, set()), key=lambda d: rank[d])
        f.write((name + ': ' + ' '.join(all_below)).rstrip() + '\n')
