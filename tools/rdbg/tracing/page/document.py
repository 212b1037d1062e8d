"""The page of a run: one HTML file that contains its style, scripts and values."""
import pathlib
from typing import Mapping, Optional

from rdbg.page.document import body_of, document, json_of
from rdbg.printable import printable
from rdbg.tracing.page.note import as_html
from rdbg.tracing.page.report import Report

HERE = pathlib.Path(__file__).resolve().parent
SCRIPTS = tuple(
    HERE / f"{name}.js"
    for name in "ways counts summary report links marks led beside printed run_page".split()
)
STYLES = (HERE / "report.css",)
LINK = '<a id="link" href="#">link to this place</a>'


def page(
    run: Mapping[str, object],
    way: Mapping[str, object],
    report: Report = Report(),
    at: Optional[int] = None,
    other: Optional[Mapping[str, object]] = None,
) -> str:
    """Returns the page of a run, with the commands that lead to its places and its report. It opens
    at a place, or at the first one. Another run is shown below if one is given."""
    title = f"{printable(str(way['file'] or 'rdbg'))}: places {run['first']} to {run['last']}"
    values = {"title": title, "way": way, "run": run, "report": report.values(at), "other": other}
    parts = {"run": json_of(values), "note": as_html(report.note)}
    body = body_of(HERE / "run.html", parts, LINK)
    return document(report.title or title, body, SCRIPTS, STYLES)
