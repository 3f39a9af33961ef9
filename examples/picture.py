#!/usr/bin/env python3
"""Draws a WAV file (mono, 16 bits) on standard input as an SVG picture on standard output: the waveform above, the spectrum below.

    examples/render plucked_bass 1 | python3 examples/picture.py 'plucked_bass' > docs/plucked_bass.svg
"""
import cmath, math, struct, sys, wave

WIDTH, HEIGHT, LEFT, TOP, GAP = 760, 150, 56, 30, 56
WINDOW = 4096
FLOOR, LOWEST = -100.0, 20.0


def fft(x):
    if len(x) == 1:
        return x
    even, odd = fft(x[0::2]), fft(x[1::2])
    turned = [cmath.rect(1, -2 * math.pi * k / len(x)) * o for k, o in enumerate(odd)]
    return [e + t for e, t in zip(even, turned)] + [e - t for e, t in zip(even, turned)]


def spectrum(xs):
    """Mean power of the windows (Hann, half overlapped), in dB below that of a full sine."""
    hann = [0.5 - 0.5 * math.cos(2 * math.pi * k / WINDOW) for k in range(WINDOW)]
    xs = xs + [0.0] * max(0, WINDOW - len(xs))
    starts = range(0, len(xs) - WINDOW + 1, WINDOW // 2)
    power = [0.0] * (WINDOW // 2)
    for start in starts:
        bins = fft([x * h for x, h in zip(xs[start:start + WINDOW], hann)])
        power = [p + abs(b) ** 2 for p, b in zip(power, bins)]
    full = (WINDOW / 4) ** 2 * len(starts)
    return [10 * math.log10(p / full + 1e-12) for p in power]


def line(points, colour):
    path = ' '.join(f'{x:.1f},{y:.1f}' for x, y in points)
    return f'<polyline points="{path}" fill="none" stroke="{colour}" stroke-width="1"/>'


def text(x, y, words, anchor='middle'):
    return f'<text x="{x:.1f}" y="{y:.1f}" text-anchor="{anchor}">{words}</text>'


def frame(top):
    return f'<rect x="{LEFT}" y="{top}" width="{WIDTH}" height="{HEIGHT}" fill="#fafafa" stroke="#888"/>'


def waveform(xs, rate, top):
    """The lowest and the highest sample of each column."""
    out, points = [frame(top)], []
    place = lambda x: top + HEIGHT / 2 * (1 - x)
    for k in range(WIDTH):
        part = xs[k * len(xs) // WIDTH:max((k + 1) * len(xs) // WIDTH, k * len(xs) // WIDTH + 1)] or [0.0]
        points += [(LEFT + k, place(min(part))), (LEFT + k, place(max(part)))]
    out.append(line(points, '#1f5fa8'))
    for x in (-1, 0, 1):
        out.append(text(LEFT - 6, place(x) + 4, x, 'end'))
    seconds = len(xs) / rate
    for k in range(5):
        out.append(text(LEFT + WIDTH * k / 4, top + HEIGHT + 16, f'{seconds * k / 4:g} s'))
    return out


def levels(xs, rate, top):
    out = [frame(top)]
    octaves = math.log2(rate / 2 / LOWEST)
    across = lambda f: LEFT + WIDTH * math.log2(f / LOWEST) / octaves
    down = lambda d: top + HEIGHT * min(max(d, FLOOR), 0) / FLOOR
    for f in (20, 50, 100, 200, 500, 1000, 2000, 5000, 10000, 20000):
        if f <= rate / 2:
            out.append(line([(across(f), top), (across(f), top + HEIGHT)], '#ddd'))
            out.append(text(across(f), top + HEIGHT + 16, f'{f:g} Hz'))
    for d in (0, -25, -50, -75, -100):
        out.append(text(LEFT - 6, down(d) + 4, f'{d} dB', 'end'))
    bins = enumerate(spectrum(xs))
    out.append(line([(across(k * rate / WINDOW), down(d)) for k, d in bins if k * rate / WINDOW >= LOWEST], '#a8401f'))
    return out


def main():
    with wave.open(sys.stdin.buffer) as w:
        rate, data = w.getframerate(), w.readframes(w.getnframes())
    xs = [x / 32767 for x in struct.unpack(f'<{len(data) // 2}h', data)]
    below = TOP + HEIGHT + GAP
    title = sys.argv[1] if len(sys.argv) > 1 else ''
    body = [text(LEFT, TOP - 10, f'{title}: {rate} Hz', 'start')] + waveform(xs, rate, TOP) + levels(xs, rate, below)
    size = f'width="{LEFT + WIDTH + 30}" height="{below + HEIGHT + 30}"'
    print(f'<svg xmlns="http://www.w3.org/2000/svg" {size} font-family="sans-serif" font-size="11">')
    print('<rect width="100%" height="100%" fill="white"/>')
    print('\n'.join(body))
    print('</svg>')


main()
