"""Pictures as SVG, which go by the reader's theme. Used by what draws them."""
from html import escape

LIGHT = {"ink": "#1f2328", "faint": "#656d76", "line": "#d0d7de", "paper": "#ffffff", "none": "#f6f8fa",
         "s0": "#0969da", "s1": "#d9480f", "s2": "#2b8a3e", "s3": "#8250df", "on": "#ffffff"}
DARK = {"ink": "#e6edf3", "faint": "#9198a1", "line": "#3d444d", "paper": "#0d1117", "none": "#161b22",
        "s0": "#58a6ff", "s1": "#ffa657", "s2": "#56d364", "s3": "#d2a8ff", "on": "#0d1117"}

def style(theme):
    def rules(colours):
        fills = "".join(f".{name}{{fill:{colour}}}" for name, colour in colours.items() if name not in ("line", "ink"))
        lines = "".join(f".l{number}{{stroke:{colours[f's{number}']}}}" for number in range(4))
        ink, rule, on = (colours[name] for name in ("ink", "line", "on"))
        return f".ink,text{{fill:{ink}}}{fills}{lines}.rule{{stroke:{rule}}}.on{{fill:{on}}}"
    fonts = ("text{font:13px system-ui,-apple-system,'Segoe UI',Helvetica,Arial,sans-serif}"
             ".byte{font:13px ui-monospace,SFMono-Regular,Menlo,Consolas,'DejaVu Sans Mono',monospace;text-anchor:middle}"
             "polyline{fill:none;stroke-width:2}.head{font-weight:600}.mid{text-anchor:middle}.end{text-anchor:end}"
             ".pale{opacity:.28}text.faint{font-size:12px}"
             ".code{font:12px ui-monospace,SFMono-Regular,Menlo,Consolas,'DejaVu Sans Mono',monospace}")
    if theme:
        return fonts + rules(DARK if theme == "dark" else LIGHT)
    return fonts + rules(LIGHT) + "@media (prefers-color-scheme:dark){" + rules(DARK) + "}"

class Picture:
    def __init__(self, title, width, height):
        self.title, self.width, self.height, self.parts = title, width, height, []

    def text(self, x, y, text, kind=""):
        self.parts.append(f'<text x="{x:g}" y="{y:g}" class="{kind}">{escape(text)}</text>')

    def bar(self, x, y, width, height, kind):
        self.parts.append(f'<rect x="{x:g}" y="{y:g}" width="{width:g}" height="{height:g}" rx="2" class="{kind}"/>')

    def rule(self, x, y, across, down):
        self.parts.append(f'<path class="rule" d="M{x:g} {y:g}l{across:g} {down:g}"/>')

    def dot(self, x, y, radius, kind):
        self.parts.append(f'<circle cx="{x:.1f}" cy="{y:.1f}" r="{radius:g}" class="{kind}"/>')

    def line(self, places, kind):
        points = " ".join(f"{x:.1f},{y:.1f}" for x, y in places)
        self.parts.append(f'<polyline points="{points}" class="{kind}"/>')

    def svg(self, theme):
        size = f'width="{self.width}" height="{self.height}" viewBox="0 0 {self.width} {self.height}"'
        head = (f'<svg xmlns="http://www.w3.org/2000/svg" {size} role="img"><title>{escape(self.title)}</title>'
                f"<style>{style(theme)}</style>")
        paper = f'<rect width="{self.width}" height="{self.height}" rx="6" class="paper"/>'
        return "\n".join([head, paper, *self.parts, "</svg>", ""])
