"""Charts as SVG, by the standard library alone."""
import math

COLOURS = ["#0b5fa5", "#c2410c", "#15803d", "#7e22ce", "#a16207", "#0e7490", "#be123c", "#374151"]
FONT = "font-family='DejaVu Sans, Verdana, sans-serif'"


def escape(text):
    return str(text).replace("&", "&amp;").replace("<", "&lt;").replace(">", "&gt;")


def words(x, y, text, size, anchor="start", more=""):
    return (f"<text x='{x:.1f}' y='{y:.1f}' {FONT} font-size='{size}' fill='#111827' text-anchor='{anchor}'{more}>"
            f"{escape(text)}</text>")


def ticks(low, high, log):
    """Round numbers between low and high."""
    if log:
        decades = range(math.floor(math.log10(low) + 1e-9), math.ceil(math.log10(high) - 1e-9) + 1)
        steps = (1,) if len(decades) > 4 else (1, 2, 5)
        return [s * 10.0 ** d for d in decades for s in steps if low * 0.999 <= s * 10.0 ** d <= high * 1.001]
    step = 10 ** math.floor(math.log10((high - low) / 4))
    for factor in (1, 2, 2.5, 5, 10):
        if (high - low) / (step * factor) <= 7:
            step *= factor
            break
    first = math.ceil(low / step - 1e-9)
    return [i * step for i in range(first, math.floor(high / step + 1e-9) + 1)]


def name(v):
    if v != 0 and (abs(v) >= 1e5 or abs(v) < 1e-3):
        power = round(math.log10(abs(v)))
        return f"1e{power}" if abs(abs(v) / 10 ** power - 1) < 1e-6 else f"{v:.0e}"
    return f"{v:,.6g}"


class Chart:
    """One chart with its legend below. What lies outside the axes is cut off."""

    def __init__(self, title, across, up, x, y, log_x=False, log_y=False, width=760, height=420):
        self.title, self.across, self.up = title, across, up
        self.x, self.y, self.log_x, self.log_y = x, y, log_x, log_y
        self.width, self.height, self.items, self.legend = width, height, [], []
        self.left, self.right, self.top, self.low = 84, width - 20, 44, height - 58

    def at_x(self, v):
        a, b = self.x
        f = math.log(v / a) / math.log(b / a) if self.log_x else (v - a) / (b - a)
        return self.left + f * (self.right - self.left)

    def at_y(self, v):
        a, b = self.y
        if self.log_y:
            v = max(v, a * 1e-3)
        f = math.log(v / a) / math.log(b / a) if self.log_y else (v - a) / (b - a)
        f = min(max(f, -1.0), 2.0)
        return self.low - f * (self.low - self.top)

    def line(self, points, label=None, colour=0, dash="", thick=1.8):
        path, last = [], None
        for x, y in points:
            place = (round(self.at_x(x), 1), round(self.at_y(y), 1))
            if place != last:
                path.append(f"{place[0]:g},{place[1]:g}")
            last = place
        style = f"fill='none' stroke='{COLOURS[colour]}' stroke-width='{thick}'"
        if dash:
            style += f" stroke-dasharray='{dash}'"
        self.items.append(f"<polyline {style} points='{' '.join(path)}'/>")
        if label:
            self.legend.append((label, f"<line x1='0' y1='0' x2='30' y2='0' {style}/>"))

    def marks(self, points, label=None, colour=0, shape="circle"):
        def one(x, y):
            c = COLOURS[colour]
            if shape == "circle":
                return f"<circle cx='{x:.1f}' cy='{y:.1f}' r='4' fill='white' stroke='{c}' stroke-width='1.8'/>"
            if shape == "cross":
                return f"<path d='M{x - 4:.1f},{y - 4:.1f}l8,8m0,-8l-8,8' stroke='{c}' stroke-width='2' fill='none'/>"
            return f"<rect x='{x - 4:.1f}' y='{y - 4:.1f}' width='8' height='8' fill='{c}'/>"
        for x, y in points:
            if min(self.y) <= y <= max(self.y):
                self.items.append(one(self.at_x(x), self.at_y(y)))
        if label:
            self.legend.append((label, one(15, 0)))

    def save(self, path):
        rows, row, used = [[]], 0, 0
        for label, mark in self.legend:
            wide = 48 + 7.8 * len(label)
            if rows[-1] and used + wide > self.right - self.left:
                rows.append([])
                used = 0
            rows[-1].append((used, label, mark))
            used += wide
        height = self.height + (24 * len(rows) if self.legend else 0)
        out = [f"<svg xmlns='http://www.w3.org/2000/svg' width='{self.width}' height='{height}' "
               f"viewBox='0 0 {self.width} {height}'>", "<rect width='100%' height='100%' fill='white'/>",
               f"<clipPath id='axes'><rect x='{self.left - 6}' y='{self.top - 6}' "
               f"width='{self.right - self.left + 12}' height='{self.low - self.top + 12}'/></clipPath>",
               words(self.left, 26, self.title, 16, "start", " font-weight='bold'")]
        for v in ticks(*self.x, self.log_x):
            x = self.at_x(v)
            out.append(f"<path d='M{x:.1f},{self.top}V{self.low}' stroke='#e5e7eb'/>")
            out.append(words(x, self.low + 19, name(v), 13, "middle"))
        for v in ticks(*self.y, self.log_y):
            y = self.at_y(v)
            out.append(f"<path d='M{self.left},{y:.1f}H{self.right}' stroke='#e5e7eb'/>")
            out.append(words(self.left - 7, y + 4.5, name(v), 13, "end"))
        out.append(f"<g clip-path='url(#axes)'>{''.join(self.items)}</g>")
        out.append(f"<path d='M{self.left},{self.top}V{self.low}H{self.right}' fill='none' stroke='#374151'/>")
        out.append(words((self.left + self.right) / 2, self.low + 42, self.across, 14, "middle"))
        turned = f" transform='translate(20,{(self.top + self.low) / 2}) rotate(-90)'"
        out.append(words(0, 0, self.up, 14, "middle", turned))
        for i, entries in enumerate(rows):
            for x, label, mark in entries:
                y = self.height + 8 + 24 * i
                out.append(f"<g transform='translate({self.left + x:.0f},{y})'>{mark}{words(38, 4.5, label, 13)}</g>")
        out.append("</svg>")
        with open(path, "w") as file:
            file.write("\n".join(out) + "\n")
