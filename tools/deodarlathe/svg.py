"""The few elements of SVG that a picture is made of."""

from html import escape

INK, GREY, WHITE = "#1f2328", "#59636e", "#ffffff"


class Drawing:
    """Elements in the order in which they are painted."""

    def __init__(self):
        self.elements = []

    def add(self, name, content=None, **attributes):
        """An element; an underscore in the name of an attribute stands for a hyphen."""
        given = "".join(f' {key.strip("_").replace("_", "-")}="{number(value)}"' for key, value in attributes.items())
        end = "/>" if content is None else f">{escape(content, quote=False)}</{name}>"
        self.elements.append(f"<{name}{given}{end}")

    def rect(self, box, fill=WHITE, stroke=GREY, rx=6, **more):
        """A rectangle."""
        self.add("rect", x=box.x, y=box.y, width=box.width, height=box.height, rx=rx, fill=fill, stroke=stroke, **more)

    def text(self, x, y, words, **more):
        """A line of text, of which x is the start unless `text_anchor` says otherwise."""
        self.add("text", words, x=x, y=y, **more)

    def line(self, x, y, to_x, to_y, stroke):
        """A straight line."""
        self.add("line", x1=x, y1=y, x2=to_x, y2=to_y, stroke=stroke, stroke_width=1.5)

    def arrow(self, x, y, to_x, stroke):
        """An arrow to the right."""
        self.line(x, y, to_x - 6, y, stroke)
        corners = ((to_x, y), (to_x - 8, y - 5), (to_x - 8, y + 5))
        self.add("polygon", points=" ".join(f"{number(a)},{number(b)}" for a, b in corners), fill=stroke)

    def document(self, width, height, title, description):
        """The whole file: white behind everything, so that it is legible on any ground."""
        head = (
            f'<svg xmlns="http://www.w3.org/2000/svg" width="{number(width)}" height="{number(height)}" '
            f'viewBox="0 0 {number(width)} {number(height)}" role="img" aria-labelledby="title desc" '
            f'font-family="DejaVu Sans, Verdana, sans-serif" font-size="12" fill="{INK}">'
        )
        names = [f'<title id="title">{escape(title)}</title>', f'<desc id="desc">{escape(description)}</desc>']
        ground = f'<rect width="{number(width)}" height="{number(height)}" fill="{WHITE}"/>'
        return "\n".join([head, *names, ground, *self.elements, "</svg>", ""])


def number(value):
    """A number as short as it can be; text as it is, safe in quotes."""
    if isinstance(value, str):
        return escape(value)
    return f"{value:.1f}".rstrip("0").rstrip(".")
