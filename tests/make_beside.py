#!/usr/bin/env python3
"""Makes the calls that the program `beside_rust` runs on the whole handler, crates/beside_rust/stdin, and what it must print, crates/beside_rust/stdout,
from what cfdp-rs 0.3.0's source.rs gave: tests/cfdp-rs/sample.txt. It runs nothing, and uses neither our handler nor the model (tests/model.py).

    python3 tests/make_beside.py

The Rust's, from the sample's lines: every PDU, every event with all it carries, every timer start, the answers of cancel, and that every put, step and
delivery is accepted (its result is Ok; a run with another result is refused here), which is our answer number 0.

The mapping (OurCalls in tests/rust_runs.py): a call of the Rust that sent k PDUs is max(k, 1) steps of ours, a delivery is ours and then that
many steps, a cancel that is accepted is ours and then one step. So a call of the Rust can be several lines here, and the Rust's own order of lines says
on which an event stands: one told before the call's first PDU stands with that PDU, any other with the PDU that it came after.

What a line of ours has and the Rust doesn't tell is not printed: an event's ids are printed by value, since the Rust's source id has the local id's width
and ours the header's; and a timer start tells no ids, so a line with nothing else has none. On a line the timers stand last, where the Rust starts the timer
of a cancelling fault before it tells the fault. Neither side's are `end 0` (the whole list was run) and the number of runs.
"""
import os
from rust_runs import OurCalls, refused, sent, stored_runs, timers, told
from stream import LIMIT, run_bytes

OUT = os.path.join(os.path.dirname(os.path.abspath(__file__)), '..', 'crates', 'beside_rust')
WORDS = {'transaction': 'transaction', 'eof': 'eof-sent', 'fault': 'fault', 'finished': 'finished'}


def by_pdu(answer):
    """The PDUs and events of a call, a part for each PDU; one part if there is none."""
    parts = [[]]
    for a in answer:
        if a[0] == 'P' and sent(parts[-1]):
            parts.append([])
        if a[0] in 'PE':
            parts[-1].append(a)
    return parts


def step_line(part):
    words, whose = [], set()
    for event in told(part):
        name, source, number, *carried = event.split()
        words += [WORDS[name]] + carried
        whose.add(' of %s %s' % (source, number))
    words += [t.split()[1] + '-timer' for t in timers(part)]
    assert len(sent(part)) <= 1 and len(whose) <= 1, part
    return ' '.join(['step 0', ''.join(sent(part)).lower() or '-'] + words) + ''.join(whose)


def call_lines(verb, steps, answer):
    first = {'put': ['put 0'], 'deliver': ['deliver 0'], 'cancel': ['cancel yes' if '= Ok(true)' in answer else 'cancel no']}.get(verb, [])
    parts = by_pdu(answer)
    assert len(parts) == steps or parts == [[]], answer             # nothing that the Rust gave is left out
    return first + [step_line(part) for part in parts[:steps]]


def lines(run):
    """What `beside_rust` prints of a run."""
    assert not refused(run), 'not in the domain'
    answers = [answer for line, answer in run if not line.startswith(('case ', 'entry '))]
    return [line for (verb, _, steps), answer in zip(OurCalls(run).calls, answers) for line in call_lines(verb, steps, answer)] + ['end 0']


def stream(label, run):
    c = OurCalls(run)
    return run_bytes(label, c.file, c.bytes())


def make():
    runs = list(stored_runs())
    data = b''.join(stream(*run) for run in runs)
    assert len(data) < LIMIT, len(data)
    printed = [(label, lines(run)) for label, run in runs]
    os.makedirs(OUT, exist_ok=True)
    open(os.path.join(OUT, 'stdin'), 'wb').write(data)
    with open(os.path.join(OUT, 'stdout'), 'w') as out:
        for label, ls in printed:
            out.write(label + '\n' + ''.join('  ' + line + '\n' for line in ls))
        out.write('%d runs\n' % len(runs))
    pdus = sum(len(sent(answer)) for _, run in runs for _, answer in run)
    calls = sum(len(ls) - 1 for _, ls in printed)
    print('%d bytes, %d runs, %d calls, %d PDUs' % (len(data), len(runs), calls, pdus))


if __name__ == '__main__':
    make()
