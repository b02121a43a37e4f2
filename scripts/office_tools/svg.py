"""A picture with two axes as SVG, by Python alone: the same bytes on every machine."""

WIDTH, HEIGHT = 860, 440
LEFT, RIGHT, TOP, BOTTOM = 90, 70, 62, 64
GRID, BELOW, LIMIT = "#dddddd", "#555555", "#c0392b"


def ticks(low, high, most=6):
    """Round numbers from low to high, so many at most."""
    step = next(each * 10**power for power in range(13) for each in (1, 2, 5) if (high - low) / (each * 10**power) <= most)
    return list(range(-(-low // step) * step, high + 1, step))


class Picture:
    """Marks over an x axis from low to high and a y axis from 0 to a top, each side with its own top."""

    def __init__(self, title, below, low, high, top, other_top=1):
        self.low, self.high, self.tops = low, max(high, low + 1), (max(top, 1), max(other_top, 1))
        self.out = [
            f'<svg xmlns="http://www.w3.org/2000/svg" viewBox="0 0 {WIDTH} {HEIGHT}" role="img"'
            ' font-family="Helvetica, Arial, sans-serif" font-size="13">',
            f"<title>{title}</title>",
            f'<rect width="{WIDTH}" height="{HEIGHT}" fill="white"/>',
            f'<text x="{LEFT}" y="26" font-size="17">{title}</text>',
            f'<text x="{(LEFT + WIDTH - RIGHT) // 2}" y="{HEIGHT - 14}" text-anchor="middle" fill="{BELOW}">{below}</text>',
        ]

    def x(self, at):
        return LEFT + (at - self.low) * (WIDTH - LEFT - RIGHT) / (self.high - self.low)

    def y(self, at, side=0):
        return HEIGHT - BOTTOM - at * (HEIGHT - TOP - BOTTOM) / self.tops[side]

    def scale(self, word, side=0, color=BELOW):
        """A scale at the left, with lines through the picture, or at the right."""
        x, anchor = (LEFT - 8, "end") if side == 0 else (WIDTH - RIGHT + 8, "start")
        for at in ticks(0, self.tops[side]):
            y = self.y(at, side)
            if side == 0:
                self.out.append(f'<line x1="{LEFT}" y1="{y:.1f}" x2="{WIDTH - RIGHT}" y2="{y:.1f}" stroke="{GRID}"/>')
            self.out.append(f'<text x="{x}" y="{y + 4:.1f}" text-anchor="{anchor}" fill="{color}">{word(at)}</text>')

    def marks(self, places):
        """Words under the x axis."""
        for at, word in places:
            self.out.append(f'<text x="{self.x(at):.1f}" y="{HEIGHT - BOTTOM + 19}" text-anchor="middle">{word}</text>')

    def bar(self, begin, end, low, high, color, said, side=0):
        """A bar, with what it says where it is pointed at."""
        x, y = self.x(begin), self.y(high, side)
        wide, tall = self.x(end) - x, self.y(low, side) - y
        self.out.append(
            f'<rect x="{x:.1f}" y="{y:.1f}" width="{wide:.1f}" height="{tall:.1f}" fill="{color}"><title>{said}</title></rect>'
        )

    def line(self, points, color, side=0):
        """A line through points, with a dot at each."""
        places = [(f"{self.x(at):.1f}", f"{self.y(high, side):.1f}", said) for at, high, said in points]
        self.out.append(f'<polyline points="{" ".join(f"{x},{y}" for x, y, _ in places)}" fill="none" stroke="{color}" stroke-width="2"/>')
        for x, y, said in places:
            self.out.append(f'<circle cx="{x}" cy="{y}" r="3" fill="{color}"><title>{said}</title></circle>')

    def limit(self, at, word):
        """A line from top to bottom that nothing may pass."""
        x = self.x(at)
        self.out.append(f'<line x1="{x:.1f}" y1="{TOP - 8}" x2="{x:.1f}" y2="{HEIGHT - BOTTOM}" stroke="{LIMIT}" stroke-dasharray="6 4"/>')
        self.out.append(f'<text x="{x - 6:.1f}" y="{TOP - 1}" text-anchor="end" fill="{LIMIT}">{word}</text>')

    def legend(self, words):
        """What the colors mean, under the title."""
        x = LEFT
        for word, color in words:
            self.out.append(f'<rect x="{x}" y="37" width="11" height="11" fill="{color}"/><text x="{x + 16}" y="47">{word}</text>')
            x += 36 + 7 * len(word)

    def text(self):
        axis = f'<line x1="{LEFT}" y1="{HEIGHT - BOTTOM}" x2="{WIDTH - RIGHT}" y2="{HEIGHT - BOTTOM}" stroke="#000000"/>'
        return "\n".join([*self.out, axis, "</svg>", ""])
