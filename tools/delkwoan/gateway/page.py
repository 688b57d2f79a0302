"""The page for browsers: its files, which are read once, and what a browser lets them do."""

from pathlib import Path

from starlette.requests import Request
from starlette.responses import Response
from starlette.routing import BaseRoute, Route

FOLDER = Path(__file__).parent / "page"
KINDS = {".html": "text/html", ".css": "text/css", ".js": "text/javascript", ".svg": "image/svg+xml"}
POLICY = "; ".join(
    [
        "default-src 'none'",
        *(f"{kind}-src 'self'" for kind in ("script", "style", "img", "connect")),
        *(f"{kind} 'none'" for kind in ("base-uri", "form-action", "frame-ancestors")),
        "require-trusted-types-for 'script'",
        "trusted-types 'none'",
    ]
)
"""Nothing from other hosts, nothing inline, no text as markup, no form that is sent by the browser itself."""
HEADERS = {"Content-Security-Policy": POLICY, "Cross-Origin-Opener-Policy": "same-origin"}
"""Beside those of each answer."""


def route(path: str, file: Path) -> Route:
    content = file.read_bytes()

    def endpoint(_: Request) -> Response:
        return Response(content, headers=HEADERS, media_type=KINDS[file.suffix])

    return Route(path, endpoint)


def routes() -> list[BaseRoute]:
    files = sorted(file for file in FOLDER.iterdir() if file.suffix in KINDS and file.name != "index.html")
    return [route("/", FOLDER / "index.html"), *(route(f"/page/{file.name}", file) for file in files)]
