"""Prints the time of the gate crate by crate, from what it printed: ./test >LOG; python3 tools/times.py LOG

Seconds of proving a crate, and of proving it again for its must-fail edits, each as `rt` gives it; two run side by side.
Below the table: the seconds of each part of the gate by the clock.
"""
import re
import sys


def read(path):
    with open(path, encoding='utf-8') as file:
        return file.read()


def proved(log):
    """The seconds of proving each crate, in the order of the log."""
    return {crate: int(seconds) for crate, seconds in re.findall(r'^rt: (\w+) proved \((\d+) s\)', log, re.M)}


def edits(log):
    """The crate and the seconds of each must-fail edit."""
    found = re.findall(r'^rt: must-fail (\w+)/\w+: refused.*?(\d+) s\)$', log, re.M)
    return [(crate, int(seconds)) for crate, seconds in found]


def main():
    log = read(sys.argv[1])
    print('| crate | proved | edits | their proofs |\n|---|---|---|---|')
    for crate, seconds in proved(log).items():
        own = [time for name, time in edits(log) if name == crate]
        print(f'| {crate} | {seconds} s | {len(own)} | {sum(own)} s |')
    print(f'| all | {sum(proved(log).values())} s | {len(edits(log))} | {sum(time for _, time in edits(log))} s |')
    for part, seconds in re.findall(r'^gate: (.+): \d+ passed \((\d+) s\)$', log, re.M):
        print(f'{part}: {seconds} s')


if __name__ == '__main__':
    main()
