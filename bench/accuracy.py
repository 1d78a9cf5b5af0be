"""
How far positions are from the exact ones, before T-04 and after, as tables.

    accuracy.py WORD..      the words that run the program of accuracy.c

A call's eight doubles are taken as they are, exactly: what is shown is the error of the call, and not that of its figures. The exact end is Kepler's, in
60 decimal digits.
"""
import math
import subprocess
import sys

from mpmath import cos, findroot, mp, mpf, pi, radians, sin, sqrt

mp.dps = 60

MU = 398600.4418                # km^3/s^2
SIDEREAL = mpf('86164.0905')    # s
YEAR = 365.25 * 86400           # s
STARTS = 100
REVOLUTIONS = ['0.1', '0.3', '1.3', '10.3', '100.3', '1000.3', '5000.3', 'a year']
PARTED = '1000.3'               # the row whose errors are taken apart
MICRO = 10**9                   # micrometres in a kilometre


def dot(a, b):
    return sum(p * q for p, q in zip(a, b))


def axis(period):
    return (MU * (period / (2 * pi))**2)**(mpf(1) / 3)


# Name, half the long axis in km, eccentricity, inclination in degrees.
ORBITS = [
    ('low', mpf('6778.137'), mpf('0.001'), mpf('51.6')),
    ('geostationary', axis(SIDEREAL), mpf(0), mpf(0)),
    ('Molniya', axis(SIDEREAL / 2), mpf('0.74'), mpf('63.4')),
]


def start(a, e, inclination, number):
    """The nearest doubles of a state: the starts lie all around an orbit, a golden angle apart, the first at perigee, farthest south."""
    anomaly, tilt = radians(mpf('137.508') * number), radians(inclination)
    r, n = a * (1 - e * cos(anomaly)), sqrt(MU / a**3)
    b = a * sqrt(1 - e * e)
    position = a * (cos(anomaly) - e), b * sin(anomaly)
    velocity = -a * a * n / r * sin(anomaly), a * b * n / r * cos(anomaly)
    return [float(c) for p, q in (position, velocity) for c in (q, -p * cos(tilt), -p * sin(tilt))]


def exact(mu, q, u, tau):
    """Position and velocity; x is the difference of the eccentric anomalies, c and s are e cos E and e sin E at the start."""
    r0 = sqrt(dot(q, q))
    a = 1 / (2 / r0 - dot(u, u) / mu)
    n = sqrt(mu / a**3)
    c, s, m = 1 - r0 / a, dot(q, u) / sqrt(mu * a), n * tau
    x = findroot(lambda x: x - c * sin(x) + s * (1 - cos(x)) - m, (m - 3, m + 3), solver='anderson', tol=mpf(10)**-100)
    r = a * (1 - c * cos(x) + s * sin(x))
    f, g = 1 - a / r0 * (1 - cos(x)), tau - (x - sin(x)) / n
    fd, gd = -sqrt(mu * a) / (r * r0) * sin(x), 1 - a / r * (1 - cos(x))
    return [f * p + g * v for p, v in zip(q, u)], [fd * p + gd * v for p, v in zip(q, u)]


def period(mu, alpha):
    return 2 * pi * mu / (-alpha * sqrt(-alpha))


def late(call):
    """By how many seconds the end comes late, from the roundings up to alpha, of the period, and of its product with the revolutions."""
    mu, x, y, z, vx, vy, vz, tau = call
    alpha = (vx * vx + vy * vy + vz * vz) - 2 * mu / math.sqrt(x * x + y * y + z * z)
    rounded = 2 * math.pi * mu / (-alpha * math.sqrt(-alpha))
    n = math.floor(tau / rounded + 0.5)
    q, u = [mpf(c) for c in call[1:4]], [mpf(c) for c in call[4:7]]
    true, stepped = period(mpf(mu), dot(u, u) - 2 * mpf(mu) / sqrt(dot(q, q))), period(mpf(mu), mpf(alpha))
    return n * (stepped - true), n * (rounded - stepped), mpf(n * rounded) - n * mpf(rounded)


def calls(a, revolutions, *shape):
    tau = YEAR if revolutions == 'a year' else float(mpf(revolutions) * period(MU, -MU / a))
    return [[MU, *start(a, *shape, number), tau] for number in range(STARTS)]


def ends(command, given):
    """For each call, the positions before and after."""
    lines = ''.join(' '.join(figure.hex() for figure in call) + '\n' for call in given)
    said = subprocess.run(command, input=lines, stdout=subprocess.PIPE, check=True, universal_newlines=True).stdout
    figures = [[mpf(float.fromhex(word)) for word in line.split()] for line in said.splitlines()]
    return [(six[:3], six[3:]) for six in figures]


def mean_square(figures):
    return sqrt(sum(figure * figure for figure in figures) / len(figures))


def two_digits(kilometres):
    figure = float('%.2g' % (kilometres * MICRO))
    return ('%d' if figure >= 10 else '%s') % figure


def mean_and_largest(figures):
    return '%s (%s)' % (two_digits(mean_square(figures)), two_digits(max(figures)))


def table(title, first, heads, rows):
    print('\n%s, in micrometres:\n' % title)
    print('| %s | %s |\n|---|%s' % (first, ' | '.join(heads), '---:|' * len(heads)))
    for name, cells in rows:
        print('| %s | %s |' % (name, ' | '.join(cells)))


def measured(command, given):
    """For each call: how far off the position is, before and after; the same along its way; and what makes it so."""
    seen = []
    for call, positions in zip(given, ends(command, given)):
        eight = [mpf(figure) for figure in call]
        position, velocity = exact(eight[0], eight[1:4], eight[4:7], eight[7])
        speed = sqrt(dot(velocity, velocity))
        apart = [[p - q for p, q in zip(end, position)] for end in positions]
        seen.append(([sqrt(dot(d, d)) for d in apart], [dot(d, velocity) / speed for d in apart], [-t * speed for t in late(call)]))
    return seen


PARTS = ['r0, v² and α, rounded: before and after', 'before: the series and the search', '**before, in all**',
         'after: P, rounded', 'after: n·P, rounded', 'after: the series and the search', '**after, in all**']


def parts(seen):
    """The root mean square of each of PARTS."""
    before, after = zip(*(along for _, along, _ in seen))
    alpha, of_period, product = zip(*(made for _, _, made in seen))
    rest_before = [e - p for e, p in zip(before, alpha)]
    rest_after = [e - p - q - r for e, p, q, r in zip(after, alpha, of_period, product)]
    return [two_digits(mean_square(each)) for each in (alpha, rest_before, before, of_period, product, rest_after, after)]


def main(command):
    names = [orbit[0] for orbit in ORBITS]
    seen = {(name, row): measured(command, calls(a, row, *shape)) for name, a, *shape in ORBITS for row in REVOLUTIONS}
    table('The error of the position, root mean square of %d starts and in brackets the largest' % STARTS, 'revolutions',
          ['%s, %s' % (name, when) for name in names for when in ('before', 'after')],
          [(row, [mean_and_largest([off[i] for off, _, _ in seen[name, row]]) for name in names for i in (0, 1)]) for row in REVOLUTIONS])
    table('What makes the error along the way after %s revolutions, root mean squares' % PARTED, '', names,
          zip(PARTS, zip(*(parts(seen[name, PARTED]) for name in names))))
    changes = [after - before for each in seen.values() for (before, after), _, _ in each]
    print('\nOf %d calls, %d end nearer to the exact place than before, and %d farther from it.'
          % (len(changes), sum(c < 0 for c in changes), sum(c > 0 for c in changes)))


main(sys.argv[1:])
