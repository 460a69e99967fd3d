//! The page: the picture, and every call in words below it. No scripts, nothing from elsewhere.

use std::fmt::{Display, Write};

use crate::meaning::answer_words;
use crate::panel::Panel;
use crate::picture::picture;
use crate::play::{Event, Played, State};
use crate::svg::escape;
use crate::text::{call_words, lock_words, written_words};

/// At most this many calls are listed.
const LISTED: usize = 2000;

const STYLE: &str = "\
body{margin:0 auto;padding:12px 16px 40px;max-width:1240px;background:#fff;color:#222;\
font-family:'Helvetica Neue',Helvetica,Arial,'Liberation Sans',sans-serif;font-size:14px}\
.picture{overflow-x:auto}.picture svg{display:block}.picture svg[width='1200']{max-width:100%;height:auto}\
details{margin:14px 4px}summary{cursor:pointer;font-weight:bold;padding:4px 0}\
table{border-collapse:collapse;margin-top:8px}td,th{text-align:left;vertical-align:top;padding:3px 10px 3px 0;\
border-top:1px solid #ddd;font-size:12.5px}th{border-top:0}td.number{text-align:right}td.lock{white-space:nowrap}\
tr.view td{font-weight:bold;padding-top:12px;border-top:2px solid #888}tr.refused{color:#777}tr.release td{font-weight:bold}\
tr.choice td{border-top:0;font-style:italic}\
@media print{.picture svg{width:100%;height:auto}}";

pub fn page(title: &str, panels: &[Panel]) -> String {
    let mut html = format!(
        "<!DOCTYPE html>\n<html lang=\"en\">\n<head>\n<meta charset=\"utf-8\">\n\
         <meta name=\"viewport\" content=\"width=device-width\">\n<title>{}</title>\n<style>{STYLE}</style>\n</head>\n<body>\n",
        escape(title)
    );
    let _ = write!(html, "<div class=\"picture\">\n{}</div>\n", picture(title, panels));
    for panel in panels {
        let heading = escape(&panel.heading);
        let _ = writeln!(html, "<details>\n<summary>Every call in words: {heading}</summary>");
        write_table(&mut html, panel.played);
        html.push_str("</details>\n");
    }
    html.push_str("</body>\n</html>\n");
    html
}

fn write_table(html: &mut String, played: &Played) {
    let columns = ["call", "replica", "handed in", "answer", "written", "view", "timed", "lock", "height"];
    let _ = writeln!(html, "<table>\n<tr><th>{}</th></tr>", columns.join("</th><th>"));
    let mut view = 0;
    for event in played.events.iter().take(LISTED) {
        if event.reached != view {
            view = event.reached;
            let leader = played.opened.leader(view);
            let _ = writeln!(html, "<tr class=\"view\"><td colspan=\"9\">view {view}, leader {leader}</td></tr>");
        }
        write_row(html, event, played);
    }
    html.push_str("</table>\n");
    if let Some(more) = played.events.len().checked_sub(LISTED).filter(|more| *more > 0) {
        let _ = writeln!(html, "<p>{more} more calls follow; the text form has them.</p>");
    }
}

fn write_row(html: &mut String, event: &Event, played: &Played) {
    let protocol = &played.opened.protocol;
    let class = match event.answer {
        0 if event.releases().count() > 0 => " class=\"release\"",
        0 => "",
        _ => " class=\"refused\"",
    };
    let written: Vec<String> = written_words(event, protocol).iter().map(|words| escape(words)).collect();
    let State { view, timed, lock, height } = event.after;
    let _ = write!(html, "<tr{class}>{}{}", number(event.index), number(event.replica));
    let _ = write!(html, "<td>{}</td>", escape(&call_words(event, protocol)));
    let _ = write!(html, "<td>{}</td>", escape(&answer_words(event.answer, event.kind())));
    let _ = write!(html, "<td>{}</td>", written.join("<br>"));
    let _ = write!(html, "{}{}", number(view), number(timed));
    let _ = writeln!(html, "<td class=\"lock\">{}</td>{}</tr>", lock_words(lock), number(height));
    for choice in &event.choices {
        let words = escape(&choice.to_string());
        let _ = writeln!(html, "<tr class=\"choice\"><td colspan=\"2\"></td><td colspan=\"7\">{words}</td></tr>");
    }
}

fn number(value: impl Display) -> String {
    format!("<td class=\"number\">{value}</td>")
}
