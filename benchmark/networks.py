"""Random steady networks of several kinds, as texts of the input grammar."""
import random


def generated(seed, count, options=(), tank=False):
    """The grid of the generator, 50 wide, with demands by a linear congruence; without its tank and its pattern, or with both."""
    lines = ['[OPTIONS]', 'UNITS CMD', 'HEADLOSS C-M', *options]
    if tank:
        lines += ['[TIMES]', 'DURATION 24', '[PATTERNS]', '1 1 0.5 1 1.5']
    lines.append('[JUNCTIONS]')
    x = seed
    for i in range(1, count + 1):
        x = (1103515245 * x + 12345) % 2 ** 31
        lines.append('J%d 0 %d' % (i, x // 65536 % 10))
    lines += ['[RESERVOIRS]', 'R 60']
    if tank:
        lines += ['[TANKS]', 'T 50 5 0 10 200 0']
    lines.append('[PIPES]')
    for i in range(1, count + 1):
        if i % 50 and i + 1 <= count:
            lines.append('H%d J%d J%d 100 300 0.01 0' % (i, i, i + 1))
    for i in range(1, count - 49):
        lines.append('V%d J%d J%d 100 300 0.01 0' % (i, i, i + 50))
    lines.append('PR R J1 100 300 0.01 0')
    if tank:
        lines.append('PT J%d T 100 300 0.01 0' % count)
    return '\n'.join(lines) + '\n'


class Network:
    """Junctions and links of a random network; rows by section."""

    def __init__(self, rng, count):
        self.rng, self.count = rng, count
        self.rows = {}
        self.links = 0

    def add(self, section, *words):
        self.rows.setdefault(section, []).append(' '.join(str(word) for word in words))

    def text(self):
        order = ['OPTIONS', 'PATTERNS', 'JUNCTIONS', 'RESERVOIRS', 'PIPES', 'PUMPS', 'VALVES', 'CURVES', 'EMITTERS']
        lines = []
        for section in order:
            if section in self.rows:
                lines += ['[%s]' % section] + self.rows[section]
        return '\n'.join(lines) + '\n'

    def options(self, *more):
        for words in ('UNITS CMD', 'HEADLOSS C-M') + more:
            self.add('OPTIONS', words)

    def junctions(self, idle, most):
        """Elevations to 20 m, and demands up to a most, but for a share of idle junctions."""
        rng = self.rng
        for i in range(self.count):
            demand = 0 if rng.random() < idle else '%.3f' % rng.uniform(0, most)
            self.add('JUNCTIONS', 'J%d' % i, '%.2f' % rng.uniform(0, 20), demand)

    def reservoirs(self, count):
        """Each stands at a random junction, behind a wide pipe."""
        rng = self.rng
        for k in range(count):
            self.add('RESERVOIRS', 'R%d' % k, '%.2f' % rng.uniform(55, 65))
            self.pipe('R%d' % k, 'J%d' % rng.randrange(self.count), 500, 600)

    def pipe(self, one, other, length=None, width=None, *more):
        rng = self.rng
        length = length or '%.1f' % rng.uniform(20, 300)
        width = width or rng.choice([100, 150, 200, 300, 400])
        rough = '%.4f' % rng.uniform(0.009, 0.015)
        self.links += 1
        self.add('PIPES', 'P%d' % self.links, one, other, length, width, rough, 0, *more)

    def pairs_of_grid(self):
        """The pairs of neighbours in a square grid, a few left out."""
        side = max(1, int(self.count ** 0.5))
        out = []
        for i in range(self.count):
            if (i + 1) % side and i + 1 < self.count:
                out.append((i, i + 1))
            if i + side < self.count:
                if (i + side) % side == 0 or self.rng.random() < 0.9:
                    out.append((i, i + side))
        return out

    def pairs_of_tree(self, loops):
        """A random tree, and a few pairs more."""
        rng = self.rng
        out = [(rng.randrange(max(0, i - 30), i), i) for i in range(1, self.count)]
        out += [tuple(rng.sample(range(self.count), 2)) for _ in range(loops)]
        return out

    def pipes(self, pairs):
        for one, other in pairs:
            self.pipe('J%d' % one, 'J%d' % other)

    def mixed_links(self, pairs):
        """Pipes, and among them check valves, valves that hold a flow, throttles with and without loss, and pumps."""
        rng = self.rng
        for one, other in pairs:
            ends = ('J%d' % one, 'J%d' % other)
            kind = rng.random()
            self.links += 1
            if kind < 0.04:
                self.links -= 1
                self.pipe(*ends, None, None, 'CV')
            elif kind < 0.07:
                self.add('VALVES', 'P%d' % self.links, *ends, rng.choice([200, 300]), 'FCV',
                         '%.2f' % rng.uniform(1, 5 * self.count ** 0.5), 0)
            elif kind < 0.10:
                self.add('VALVES', 'P%d' % self.links, *ends, rng.choice([200, 300]), 'TCV', rng.choice([0, 0, 1, 10, 100]), 0)
            elif kind < 0.12:
                self.pump('P%d' % self.links, *ends)
                self.pipe(*ends)
            else:
                self.links -= 1
                self.pipe(*ends)

    def pump(self, name, one, other):
        rng = self.rng
        self.add('PUMPS', name, one, other, 'HEAD C' + name)
        self.add('CURVES', 'C' + name, '%.1f' % rng.uniform(50, 2000), '%.1f' % rng.uniform(2, 20))

    def emitters(self, share):
        for i in range(self.count):
            if self.rng.random() < share:
                self.add('EMITTERS', 'J%d' % i, '%.3f' % self.rng.uniform(0.01, 1))


def grid(rng, count):
    net = Network(rng, count)
    net.options()
    net.junctions(0.1, 10)
    net.reservoirs(rng.choice([1, 1, 2, 3]))
    net.pipes(net.pairs_of_grid())
    return net.text()


def idle(rng, count):
    net = Network(rng, count)
    net.options()
    net.junctions(0.7, 10)
    net.reservoirs(rng.choice([1, 1, 2]))
    net.pipes(net.pairs_of_grid() if rng.random() < 0.5 else net.pairs_of_tree(count // 20))
    return net.text()


def dead_tree(rng, count):
    net = Network(rng, count)
    net.options()
    net.junctions(0.95, 10)
    net.reservoirs(1)
    net.pipes(net.pairs_of_tree(0))
    return net.text()


def mixed(rng, count):
    net = Network(rng, count)
    net.options()
    net.junctions(0.3, 10)
    net.reservoirs(rng.choice([1, 2, 3]))
    net.mixed_links(net.pairs_of_grid() if rng.random() < 0.5 else net.pairs_of_tree(count // 10))
    return net.text()


def pressure_driven(rng, count):
    net = Network(rng, count)
    net.options('DEMAND MODEL PDA', 'MINIMUM PRESSURE 0', 'REQUIRED PRESSURE %.1f' % rng.uniform(5, 40),
                'PRESSURE EXPONENT 0.5')
    net.junctions(0.3, 10)
    net.reservoirs(rng.choice([1, 2, 3]))
    net.mixed_links(net.pairs_of_grid() if rng.random() < 0.5 else net.pairs_of_tree(count // 10))
    net.emitters(0.1)
    return net.text()


KINDS = {'grid': grid, 'idle': idle, 'dead tree': dead_tree, 'mixed': mixed, 'pressure': pressure_driven}


def network(kind, count, seed):
    return KINDS[kind](random.Random('%s/%d/%d' % (kind, count, seed)), count)
