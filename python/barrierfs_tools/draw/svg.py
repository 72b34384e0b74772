"""Texts and heads of pictures, as SVG."""
import html


def text(x: float, y: float, words: str, **more: object) -> str:
    """Words at a place, with these attributes."""
    attributes = "".join(f' {name.replace("_", "-")}="{value}"' for name, value in more.items())
    return f'<text x="{x:g}" y="{y:g}"{attributes}>{html.escape(words)}</text>'


def head(width: int, height: int) -> str:
    """The head of a picture."""
    size = f'width="{width}" height="{height}" viewBox="0 0 {width} {height}"'
    return f'<svg xmlns="http://www.w3.org/2000/svg" {size} font-family="sans-serif" font-size="13">'
