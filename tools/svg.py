"""A sheet of SVG 1.1, and the colours of positions."""
import colorsys
import contextlib
from typing import Any, Dict, Iterator, List, Optional, Sequence, Tuple
from xml.sax.saxutils import escape, quoteattr

from named import breadth

RED, BLUE = "#c00000", "#00459c"
HATCHES = {
    "hatch": '<path d="M-2 2L2 -2M0 8L8 0M6 10L10 6" stroke="#777" stroke-width="1.4" fill="none"/>',
    "light": '<path d="M-2 6L2 10M0 0L8 8M6 -2L10 2" stroke="#555" stroke-width="0.7" fill="none"/>',
}


def luminance(*colours: float) -> float:
    """How light a colour is, from red, green and blue, as WCAG 2 has it; the contrast of two is (lighter + 0.05) / (darker + 0.05)."""
    return sum(part * (level / 12.92 if level <= 0.03928 else ((level + 0.055) / 1.055) ** 2.4) for part, level in zip((0.2126, 0.7152, 0.0722), colours))


def colour(position: int) -> Tuple[str, str]:
    """32 colours: neighbours differ in hue and in lightness, so that a grey print keeps them apart too; and the ink that is read best on each."""
    turn = (position - 1) * 0.618034 % 1
    light = (0.74, 0.46, 0.84, 0.58)[(position - 1) % 4]
    red, green, blue = colorsys.hls_to_rgb(turn, light, 0.62)
    ink = "#000" if (luminance(red, green, blue) + 0.05) ** 2 > 1.05 * 0.05 else "#fff"
    return "#%02x%02x%02x" % (round(red * 255), round(green * 255), round(blue * 255)), ink


class Sheet:
    """The elements of a picture, and how large it must be to show them. Where it is one of several in a page, all its names begin with its own."""

    def __init__(self, own: str = ""):
        self.parts: List[str] = []
        self.right, self.bottom, self.own = 0.0, 0.0, own

    def attributes(self, words: Dict[str, Any]) -> str:
        named = {key: self.own + value if key == "id" else str(value).replace("url(#", f"url(#{self.own}") for key, value in words.items()}
        return "".join(f" {key.replace('_', '-')}={quoteattr(value)}" for key, value in named.items())

    def add(self, name: str, inner: Optional[str] = None, **words: Any) -> None:
        self.parts.append(f"<{name}{self.attributes(words)}/>" if inner is None else f"<{name}{self.attributes(words)}>{escape(inner)}</{name}>")

    def reach(self, x: float, y: float) -> None:
        self.right, self.bottom = max(self.right, x), max(self.bottom, y)

    def text(self, x: float, y: float, words: str, size: float = 11, **more: Any) -> None:
        self.reach(x + breadth(words) * size * 0.6 * {"middle": 0.5, "end": 0}.get(more.get("text_anchor"), 1), y + 4)
        self.add("text", words, x=round(x, 2), y=round(y, 2), font_size=size, **more)

    @contextlib.contextmanager
    def group(self, **words: Any) -> Iterator[None]:
        self.parts.append(f"<g{self.attributes(words)}>")
        yield
        self.parts.append("</g>")

    def hatching(self, name: str) -> None:
        self.parts.append(f'<defs><pattern id="{self.own}{name}" width="8" height="8" patternUnits="userSpaceOnUse">{HATCHES[name]}</pattern></defs>')

    def out(self, title: str, about: Sequence[str]) -> str:
        """The whole, with a title and a description for screen readers."""
        wide, high = round(self.right + 16), round(self.bottom + 12)
        return "\n".join([
            '<?xml version="1.0" encoding="UTF-8"?>',
            '<svg xmlns="http://www.w3.org/2000/svg" xmlns:xlink="http://www.w3.org/1999/xlink" version="1.1" role="img" aria-labelledby="title about"'
            f' width="{wide}" height="{high}" viewBox="0 0 {wide} {high}" font-family="Helvetica, Arial, sans-serif">',
            f'<title id="title">{escape(title)}</title>', f'<desc id="about">{escape(" ".join(about))}</desc>',
            f'<rect width="{wide}" height="{high}" fill="#fff"/>', *self.parts, "</svg>", ""])
