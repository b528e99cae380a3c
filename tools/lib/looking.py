"""From a capture to pages: for each session its recording, report, comparison and timeline, and an index with its figures."""

import os
from html import escape

from .beside import Beside
from .answers import read
from .files import write, writing
from .findings import milliseconds_of
from .page import END, Page, begin
from .picture import connections, paint
from .places import events_with_places
from .statistics import Figures
from .unanswered import MOST_TOLD, End
from .verdicts import NOT_ALLOWED

MOST_DIFFERENCES = 30
INDEX = "index.html"


class Looked:
    """What is shown of one session: its row and its section in the index. What it was made of is let go."""

    def __init__(self, made):
        self.made = made
        self.name = os.path.basename(made.base)
        self.write_report()
        self.figures = self.write_timeline()
        self.write_differences()
        self.open = self.figures.outstanding.all()
        self.row, self.section = self.row_words(), "".join(self.section_words())
        made.session.items.clear()
        self.made = self.figures = self.open = None

    def write_report(self):
        write(f"{self.made.base}.report", self.made.recording.report)

    def write_timeline(self):
        """Writes the page, and gives the figures."""
        made = self.made
        places = [place for _, place in events_with_places(made.recording.lines)]
        frames = [place.frame for place in places]
        page = Page(1, None)
        answers = list(read(made.answers))
        figures = paint(zip(made.recording.events, places), page, Beside(answers, frames, made.comparison),
                        lambda first: Figures(first, answers, End(line for line in made.lines if line[:1] == "#")))
        with writing(f"{made.base}.html") as file:
            page.write(file, f"{self.name}: events 1 to {page.events}", list(connections(made.recording.lines)))
        return figures

    def write_differences(self):
        lines = [f"frame {one.frame} ({one.time:.6f} s), connection {one.cid}, {one.kind}:\n  {one.words}\n  {one.verdict.words}\n"
                 for one in self.made.comparison.differences]
        write(f"{self.made.base}.differences.txt", "".join(lines) or "no difference\n")

    # ---- the index

    def row_words(self):
        """The row of the session in the first table."""
        session, figures = self.made.session, self.figures
        statuses = ", ".join(f"{count} × {what.removeprefix('SCSI Response ')}" for what, count in figures.replies.items()
                             if what.startswith("SCSI Response ") and not what.endswith(" GOOD"))
        cells = (f'<a href="#{self.name}">{escape(self.name)}</a>', escape(session.names[0] or "not known"), session.port, milliseconds_of(session),
                 figures.commands, self.count_words(), figures.aborted, escape(statuses), self.difference_cell())
        return "<tr>" + "".join(f"<td>{cell}</td>" for cell in cells) + "</tr>"

    def count_words(self):
        """How many requests have no answer."""
        return f'<span class="sick">{len(self.open)}</span>' if self.open else 0

    def difference_cell(self):
        """The differences that are not allowed, and the others quietly behind them."""
        counted = ((name, self.made.comparison.counts_of(is_allowed)) for name, is_allowed in (("sick", False), ("quiet", True)))
        return "<br>".join(f'<span class="{name}">' + escape(", ".join(f"{count} × {kind}" for kind, count in sorted(counts.items())))
                           + (" not allowed" if name == "sick" else "") + "</span>" for name, counts in counted if counts)

    def section_words(self):
        """What the index says of the session."""
        base = escape(self.name)
        yield f'<h2 id="{base}">{base}</h2>\n<p>{escape("; ".join(self.made.parts))}</p>\n<p>'
        yield " · ".join(f'<a href="{base}.{ending}">{words}</a>' for ending, words in (
            ("html", "timeline"), ("differences.txt", "differences"), ("recording", "recording"), ("report", "report"),
            ("target", "what the target answered"))) + "</p>\n"
        yield from self.unanswered()
        yield from self.times()
        yield from self.commands("Slowest commands", self.figures.longest.all)
        yield from self.commands("What waited longest", self.figures.waited.all)
        yield from self.differences()

    def unanswered(self):
        if self.open:
            yield '<h3 class="sick">Without an answer</h3>\n<ol>\n'
            yield from (f'<li>{one.age} old at the capture\'s end: {escape(one.words)}, <a href="{escape(self.name)}.html#{one.event}">frame '
                        f'{one.frame}</a>; {escape(one.where)}</li>\n' for one in self.open[:MOST_TOLD])
            yield "</ol>\n"
        if len(self.open) > MOST_TOLD:
            yield f'<p class="quiet">and {len(self.open) - MOST_TOLD} more</p>\n'

    def times(self):
        rows = self.figures.response_times()
        if rows:
            heads = ("milliseconds", "number", "p50", "p90", "p99", "max", "longest held", "longest behind others")
            yield "<table><tr>" + "".join(f"<th>{head}</th>" for head in heads) + "</tr>\n"
            for name, row in rows.items():
                cells = [f"{row[key] * 1000:.3f}" for key in ("p50", "p90", "p99", "max", "held", "dormant")]
                yield f"<tr><td>{escape(name)}</td>" + "".join(f'<td class="number">{cell}</td>' for cell in (row["count"], *cells)) + "</tr>\n"
            yield "</table>\n"

    def commands(self, title, taken):
        if not taken:
            return
        yield f"<h3>{title}</h3>\n<ol>\n"
        for one in taken:
            words = (f'{one.seconds * 1000:.3f} ms: {escape(one.name)}, tag {one.tag}, connection {one.cid}, unit {one.unit}, '
                     f'<a href="{escape(self.name)}.html#{one.event}">frame {one.frame}</a> to '
                     f'<a href="{escape(self.name)}.html#{one.answer_event}">{one.answer_frame}</a>')
            if one.held > 0:
                words += f"; held {one.held * 1000:.3f} ms for lower CmdSNs"
            if one.dormant > 0:
                words += f"; {one.dormant * 1000:.3f} ms behind {escape(one.behind)}"
            yield f"<li>{words}</li>\n"
        yield "</ol>\n"

    def differences(self):
        found = self.made.comparison.differences
        if not found:
            return
        yield "<h3>Where the target and the rules part</h3>\n<ul>\n"
        for one in found[:MOST_DIFFERENCES]:
            yield f'<li>frame {one.frame} ({one.time:.6f} s), connection {one.cid}, <b>{escape(one.kind)}</b>: {escape(one.words)}'
            yield f'<br><span class="{"sick" if one.verdict.verdict == NOT_ALLOWED else "quiet"}">{escape(one.verdict.words)}</span></li>\n'
        yield "</ul>\n"
        if len(found) > MOST_DIFFERENCES:
            yield f'<p class="quiet">and {len(found) - MOST_DIFFERENCES} more, in <a href="{escape(self.name)}.differences.txt">the list</a></p>\n'


def write_index(folder, capture, looked, left_out):
    """Writes the index. Its path."""
    path = os.path.join(folder, INDEX)
    heads = ("session", "initiator", "port", "milliseconds", "commands", "unanswered", "taken out", "statuses other than GOOD", "differences")
    with writing(path) as file:
        title = os.fsencode(os.path.basename(capture)).decode("utf-8", "backslashreplace")
        file.write(f"{begin(title, 'index.css')}<h1>{escape(title)}</h1>\n")
        file.write("<table><tr>" + "".join(f"<th>{head}</th>" for head in heads) + "</tr>\n")
        file.writelines(one.row + "\n" for one in looked)
        file.write("</table>\n" + "".join(f'<p class="quiet">left out: {escape(words)}</p>\n' for words in left_out))
        file.writelines(one.section for one in looked)
        file.write(END)
    return path
