"""Pages of the manual as HTML, by pandoc, else by Python's markdown, and the search of the index. Used by package.

Each page is beside the one that it was made of, so that links to pictures and files stay as they are; one to a page of the
same set leads to its HTML. Headings have the anchors that GitHub gives them, which the links go by.
"""
import html, os, re, shutil, subprocess

MANUAL, INDEX = "docs/manual/README.md", "docs/manual/index.md"
HEADING = re.compile(r"<(h[1-6])(?: [^>]*)?>(.*?)</\1>", re.S)
HREF = re.compile(r'(<a (?:[^>]* )?href=")([^"#:]+)(#[^"]*)?"')
MARK = "<!-- page {} -->"

class NoConverter(Exception):
    """There is nothing that converts pages, or it doesn't."""

def pandoc(texts):
    """The pages' bodies, all by one run: each is told from the next one by a mark."""
    marked = "\n\n".join(f"{MARK.format(at)}\n\n{text}" for at, text in enumerate(texts))
    words = ["pandoc", "--from", "gfm", "--to", "html5", "--no-highlight", "--wrap", "preserve"]
    ran = subprocess.run(words, input=marked.encode(), capture_output=True, check=False)
    if ran.returncode != 0:
        told = ran.stderr.decode(errors="replace").strip()
        raise NoConverter(f"pandoc ended with status {ran.returncode}" + (f": {told}" if told else ""))
    bodies = re.split(MARK.format(r"\d+"), ran.stdout.decode())[1:]
    return [re.sub(r"<colgroup>.*?</colgroup>\n?", "", it, flags=re.S) for it in bodies]

def python_markdown(texts):
    import markdown
    # A list may come right after a paragraph, and a bar in code of a table has a backslash, as on GitHub.
    followed = re.compile(r"^(?!- |\s|$)(.*)\n(?=- )", re.M)
    def one(text):
        parts = re.split(r"(^```.*?^```$)", text, flags=re.M | re.S)
        text = "".join(it if at % 2 else followed.sub(r"\1\n\n", it) for at, it in enumerate(parts))
        out = markdown.markdown(text, extensions=["tables", "fenced_code", "sane_lists"], output_format="html")
        return re.sub(r"<td.*?</td>", lambda it: it[0].replace("\\|", "|"), out, flags=re.S)
    return [one(it) for it in texts]

def converter():
    """What converts pages here."""
    if shutil.which("pandoc"):
        return pandoc
    try:
        import markdown  # pylint: disable=unused-import
    except ImportError:
        raise NoConverter("neither pandoc nor Python's markdown is there") from None
    return python_markdown

def plain(text):
    return html.unescape(re.sub(r"<[^>]*>", "", text)).strip()

def anchor_of(heading):
    """The anchor that GitHub makes of a heading."""
    return re.sub(r"[^\w\- ]", "", heading.lower()).replace(" ", "-")

def with_anchors(body):
    given = {}
    def heading(it):
        anchor = anchor_of(plain(it[2]))
        given[anchor] = given.get(anchor, -1) + 1
        anchor += f"-{given[anchor]}" if given[anchor] else ""
        return f'<{it[1]} id="{html.escape(anchor)}">{it[2]}</{it[1]}>'
    return HEADING.sub(heading, body)

def name_of(page):
    return page.removesuffix(".md") + ".html"

def with_links(page, body, pages):
    """The body with links to pages of the set made links to their HTML."""
    def link(it):
        target = os.path.normpath(os.path.join(os.path.dirname(page), it[2]))
        return f'{it[1]}{name_of(it[2]) if target in pages else it[2]}{it[3] or ""}"'
    return HREF.sub(link, body)

STYLE = """
:root { color-scheme: light dark; --line: #8885; --shade: #8881; }
body { margin: 0 auto; max-width: 60rem; padding: 0 1rem 4rem; font: 1rem/1.5 system-ui, sans-serif; }
nav { display: flex; flex-wrap: wrap; gap: 1rem; align-items: center; padding: .75rem 0; border-bottom: 1px solid var(--line); }
nav form { margin-left: auto; }
input { font: inherit; padding: .2rem .5rem; }
h1, h2, h3 { line-height: 1.25; }
table { border-collapse: collapse; display: block; overflow-x: auto; }
th, td { border: 1px solid var(--line); padding: .3rem .6rem; text-align: left; vertical-align: top; }
code { background: var(--shade); border-radius: .2rem; padding: 0 .2rem; }
pre { background: var(--shade); overflow-x: auto; padding: .75rem; }
pre code { background: none; padding: 0; }
blockquote { border-left: .25rem solid var(--line); margin-left: 0; padding-left: 1rem; }
img { max-width: 100%; }
[hidden] { display: none; }
"""
# Rows without a word that is looked for are hidden, and headings whose table has no row left; Enter follows the first link.
SEARCH = """
const box = document.querySelector("nav input"), said = document.querySelector("#found");
const rows = [...document.querySelectorAll("main tbody tr")];
function find() {
  const words = box.value.toLowerCase().split(/\\s+/).filter(it => it);
  for (const row of rows) row.hidden = !words.every(it => row.textContent.toLowerCase().includes(it));
  for (const table of document.querySelectorAll("main table")) {
    table.hidden = !table.querySelector("tbody tr:not([hidden])");
    let above = table.previousElementSibling;
    while (above && !/^H[1-6]$/.test(above.tagName)) above = above.previousElementSibling;
    if (above) above.hidden = table.hidden;
  }
  const left = rows.filter(it => !it.hidden);
  said.textContent = words.length ? left.length + (left.length == 1 ? " row" : " rows") : "";
  return left;
}
box.value = new URLSearchParams(location.search).get("q") || "";
box.addEventListener("input", find);
box.form.addEventListener("submit", event => {
  event.preventDefault();
  const link = find().map(it => it.querySelector("a")).find(it => it);
  if (link) location.href = link.href;
});
find();
"""

def page(name, body):
    """The whole page of a body."""
    title = re.search(r"<h1[^>]*>(.*?)</h1>", body, re.S)
    there = lambda it: os.path.relpath(name_of(it), os.path.dirname(name) or ".")
    is_index = name == INDEX
    return f"""<!DOCTYPE html>
<html lang="en">
<head>
<meta charset="utf-8">
<meta name="viewport" content="width=device-width, initial-scale=1">
<title>{html.escape(plain(title[1])) if title else name}</title>
<style>{STYLE}</style>
</head>
<body>
<nav>
<a href="{there(MANUAL)}">The manual</a> <a href="{there(INDEX)}">Index</a>
<form action="{there(INDEX)}"><input type="search" name="q" placeholder="Find in the index" aria-label="Find in the index"></form>
{'<span id="found" role="status"></span>' if is_index else ""}
</nav>
<main>
{body.strip()}
</main>
{f"<script>{SEARCH}</script>" if is_index else ""}
</body>
</html>
"""

def forward(name):
    """A page that leads to the manual."""
    return f'<!DOCTYPE html>\n<meta charset="utf-8">\n<title>The manual</title>\n' \
           f'<meta http-equiv="refresh" content="0; url={name}">\n<a href="{name}">The manual</a>\n'

def pages_of(texts, convert=None):
    """The HTML pages of Markdown pages, by their names; raises NoConverter where nothing converts them."""
    bodies = (convert or converter())([*texts.values()])
    if len(bodies) != len(texts):
        raise NoConverter(f"of {len(texts)} pages {len(bodies)} were converted")
    return {name_of(name): page(name, with_links(name, with_anchors(body), texts)) for name, body in zip(texts, bodies)}
