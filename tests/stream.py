"""The stream that the programs `passes` and `beside_rust` read (crate `replay`): runs, one after another, 65,536 bytes at most.

A run is: length of the label (1), label, length of the file (4), file, length of the list (4), list. The list is as docs/HOST.md has it, but each
run of 1 to 255 zeros is written as a zero and their count, which makes a configuration short.
"""
import re

LIMIT = 65536


def coded(data):
    return re.sub(rb'\0{1,255}', lambda zeros: bytes([0, len(zeros.group())]), data)


def run_bytes(label, file, calls):
    label, calls = label.encode(), coded(calls)
    return bytes([len(label)]) + label + b''.join(len(b).to_bytes(4, 'big') + b for b in (file, calls))
