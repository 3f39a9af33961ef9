#!/usr/bin/env python3
"""Writes the example sheets, each from a short text below: `python3 examples/sheets.py` writes examples/NAME.sheet for every voice.

A record is (name, option, numbers, chain); the chain is a list of records. Values are numbers (a Const) or value records."""
import os, struct

KINDS = {n: k for k, n in [(1, 'Sine'), (2, 'Square'), (3, 'Sawtooth'), (4, 'Triangle'), (5, 'Fm'), (6, 'Super'), (7, 'Impact'), (8, 'Env'), (9, 'Noise'), (10, 'Dust'),
    (11, 'Mix'), (12, 'Mul'), (13, 'Chain'), (21, 'Gain'), (22, 'Lowpass'), (23, 'Highpass'), (24, 'Bandpass'), (25, 'Notch'), (26, 'Peak'), (27, 'Lowshelf'), (28, 'Highshelf'),
    (29, 'Delay'), (30, 'Reverb'), (31, 'Modal'), (32, 'Drive'), (33, 'Tremolo'), (34, 'Chorus'), (35, 'Compress'),
    (41, 'Const'), (42, 'Slide'), (43, 'Lfo'), (44, 'Arp'), (45, 'EnvMod'), (46, 'Rand'), (51, 'Mode'), (52, 'Step')]}


def value(v):
    return v if isinstance(v, tuple) else ('Const', 0, [float(v)], [])


def r(kind, numbers=(), chain=(), option=0):
    return (kind, option, list(numbers), [value(c) if not isinstance(c, tuple) else c for c in chain])


def number(x):
    return struct.pack('<I', x) if isinstance(x, int) else struct.pack('<f', x)


def sheet(root, rate=48000, length=0, path=0):
    rows = []

    def lay(record):
        kind, option, numbers, chain = record
        i = len(rows)
        rows.append([KINDS[kind], option, 0, 0, numbers])
        last = None
        for c in chain:
            j = len(rows)
            if last is None:
                rows[i][2] = j
            else:
                rows[last][3] = j
            lay(c)
            last = j

    lay(root)
    head = struct.pack('<HHIQQ', len(rows), 0, rate, length, path)
    return head + b''.join(struct.pack('<BBHHH', k, o, f, n, 0) + b''.join(map(number, xs)).ljust(32, b'\0') for k, o, f, n, xs in rows)


VOICES = {
    # document 01's worked sheet
    'worked': sheet(r('Chain', chain=[r('Mul'), r('Gain', chain=[0.5])]), rate=8000),
    'organ_stop': sheet(r('Chain', chain=[r('Mix', chain=[r('Sine', chain=[220.0]), r('Chain', chain=[r('Sine', chain=[440.0]), r('Gain', chain=[0.5])]), r('Chain', chain=[r('Sine', chain=[660.0]), r('Gain', chain=[0.25])])]),
        r('Gain', chain=[0.5]), r('Chorus', [0.8, 0.4, 0.3])])),
    'plucked_bass': sheet(r('Chain', chain=[r('Mul', chain=[r('Sawtooth', chain=[55.0]), r('Env', [0.002, 0.25, 0.1, 0.1, 0.5])]), r('Lowpass', [0.9], [r('Slide', [2400.0, 180.0, 0.3], option=1)]), r('Gain', chain=[0.8])]), length=48000),
    'bell': sheet(r('Chain', chain=[r('Impact', [0.8, 1.0]), r('Modal', [1.0], [r('Mode', [523.25, 2.5, 1.0]), r('Mode', [1410.0, 1.6, 0.6]), r('Mode', [2790.0, 0.9, 0.4]), r('Mode', [4400.0, 0.5, 0.25])]), r('Reverb', [0.6, 0.25])])),
    'supersaw_pad': sheet(r('Chain', chain=[r('Super', [7, 18.0], [196.0]), r('Lowpass', [0.7], [r('Lfo', [0.1, 600.0, 1400.0])]), r('Chorus', [0.5, 0.6, 0.4]), r('Reverb', [0.7, 0.3])])),
    'wind': sheet(r('Chain', chain=[r('Noise', option=1), r('Bandpass', [1.2], [r('Rand', [300.0, 1400.0, 0.7, 7, 0])]), r('Gain', chain=[r('Lfo', [0.15, 0.2, 0.6])])])),
    'driven_lead': sheet(r('Chain', chain=[r('Square', chain=[329.6, r('Lfo', [0.5, 0.2, 0.5])]), r('Drive', chain=[3.0]), r('Lowpass', [1.0], [3200.0]), r('Delay', [0.3, 0.35]), r('Gain', chain=[0.4])])),
    'chorus_strings': sheet(r('Chain', chain=[r('Mix', chain=[r('Sawtooth', chain=[220.0]), r('Sawtooth', chain=[221.3]), r('Sawtooth', chain=[329.6])]), r('Lowpass', [0.7], [1800.0]), r('Gain', chain=[0.3]), r('Chorus', [0.9, 0.8, 0.5])])),
    'fm_keys': sheet(r('Mul', chain=[r('Fm', [2.0], [261.6, r('EnvMod', [0.001, 0.4, 0.2, 0.3, 0.0, 0.2, 4.0])]), r('Env', [0.002, 0.8, 0.3, 0.4, 0.2])]), length=96000),
    'arpeggio': sheet(r('Chain', chain=[r('Triangle', chain=[r('Arp', [8.0], [r('Step', [261.6]), r('Step', [329.6]), r('Step', [392.0]), r('Step', [523.3])])]), r('Delay', [0.375, 0.4]), r('Gain', chain=[0.5])])),
    'rain': sheet(r('Chain', chain=[r('Dust', [40.0, 0.003]), r('Highpass', [0.8], [900.0]), r('Reverb', [0.5, 0.4])])),
    'tremolo_reed': sheet(r('Chain', chain=[r('Square', chain=[174.6, 0.3]), r('Peak', [1.5, 6.0], [1200.0]), r('Highshelf', [-9.0], [5000.0]), r('Tremolo', [5.5, 0.4]), r('Gain', chain=[0.3])])),
    'compressed_kick': sheet(r('Chain', chain=[r('Mul', chain=[r('Sine', chain=[r('Slide', [180.0, 45.0, 0.12], option=1)]), r('Env', [0.001, 0.3, 0.0, 0.05, 1.0])]), r('Drive', chain=[2.0], option=1), r('Compress', [-12.0, 4.0, 0.005, 0.1, 3.0])]), length=24000),
}

if __name__ == '__main__':
    here = os.path.dirname(os.path.abspath(__file__))
    for name, data in VOICES.items():
        open(os.path.join(here, name + '.sheet'), 'wb').write(data)
