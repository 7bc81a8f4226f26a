"""Pictures as SVG, for any browser: text, lines, boxes and a frame of axes. Lengths are in pixels, times in ticks."""

from xml.sax.saxutils import escape

INK, GREY, GRID = "#222222", "#666666", "#dddddd"
# Colours that a colour-blind person tells apart (M. Okabe and K. Ito, "Color Universal Design", 2008).
BLUE, SKY, GREEN, YELLOW, ORANGE, RED, PURPLE = "#0072b2", "#56b4e9", "#009e73", "#f0e442", "#e69f00", "#d55e00", "#cc79a7"


class Picture:
    """A picture that grows: `svg` gives its text."""

    def __init__(self, width, height, title, below=""):
        self.width, self.height, self.title, self.parts = width, height, title, []
        self.text(14, 22, title, size=15, weight="bold")
        if below:
            self.text(14, 40, below, fill=GREY)

    def text(self, x, y, words, size=11, fill=INK, anchor="start", weight="normal", family="sans-serif"):
        self.parts.append(f'<text x="{x:.1f}" y="{y:.1f}" font-size="{size}" fill="{fill}" text-anchor="{anchor}" '
                          f'font-weight="{weight}" font-family="{family}" xml:space="preserve">{escape(words)}</text>')

    def line(self, begin, end, stroke=INK, width=1.0, dash=""):
        self.parts.append(f'<line x1="{begin[0]:.2f}" y1="{begin[1]:.2f}" x2="{end[0]:.2f}" y2="{end[1]:.2f}" '
                          f'stroke="{stroke}" stroke-width="{width}"' + (f' stroke-dasharray="{dash}"' if dash else "") + "/>")

    def box(self, corner, size, fill, says=""):
        title = f"<title>{escape(says)}</title>" if says else ""
        self.parts.append(f'<rect x="{corner[0]:.2f}" y="{corner[1]:.2f}" width="{size[0]:.2f}" height="{size[1]:.2f}" '
                          f'fill="{fill}">{title}</rect>')

    def path(self, points, stroke, width=1.5, fill="none"):
        corners = " L".join(f"{x:.2f},{y:.2f}" for x, y in points)
        self.parts.append(f'<path d="M{corners}" stroke="{stroke}" stroke-width="{width}" fill="{fill}"/>')

    def clip(self, corner, size):
        """From here on up to `end_clip` only what is inside this box is seen."""
        self.parts.append(f'<clipPath id="inside"><rect x="{corner[0]}" y="{corner[1]}" width="{size[0]}" height="{size[1]}"/>'
                          '</clipPath><g clip-path="url(#inside)">')

    def end_clip(self):
        self.parts.append("</g>")

    def legend(self, x, y, pairs):
        """A row of colours, each with what it says."""
        for colour, words in pairs:
            self.box((x, y - 9), (12, 10), colour, words)
            self.text(x + 16, y, words, size=10)
            x += 32 + 5.6 * len(words)

    def svg(self):
        head = (f'<svg xmlns="http://www.w3.org/2000/svg" width="{self.width}" height="{self.height}" '
                f'viewBox="0 0 {self.width} {self.height}" role="img">\n<title>{escape(self.title)}</title>\n'
                '<rect width="100%" height="100%" fill="white"/>\n')
        return head + "\n".join(self.parts) + "\n</svg>\n"


def round_numbers(most, count):
    """At most `count` and one round numbers from 0 up to `most`."""
    step = 1
    while most / step > count:
        step = step * 5 // 2 if str(step)[0] == "2" else step * 2
    return range(0, int(most) + 1, step)


class TimeAxis:
    """A span of ticks, laid along the width of a picture from `left` on."""

    def __init__(self, left, width, first, last):
        self.left, self.width, self.first, self.last = left, width, first, last

    def x(self, tick):
        return self.left + (tick - self.first) * self.width / max(1, self.last - self.first)

    def draw(self, picture, y, unit="ticks"):
        for number in round_numbers(self.last - self.first, 10):
            at = self.x(self.first + number)
            picture.line((at, y), (at, y + 4))
            picture.text(at, y + 16, str(self.first + number), size=10, anchor="middle")
        picture.line((self.left, y), (self.left + self.width, y))
        picture.text(self.left + self.width, y + 30, unit, size=10, anchor="end")
