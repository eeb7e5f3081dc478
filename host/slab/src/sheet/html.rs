//! The sheet as a page: the elements, classes and words that slab.html has for the same floor.

use super::escape::escaped;
use super::units::kn_m_of_n_cm;
use super::{
    notes, spaced, Content, Frame, Row, Sheet, Span, Support, BROKEN, CLEAR, PARTS, SUPPORTS, WHAT,
};
use crate::judge::Section;

const STYLE: &str = include_str!("../../../../web/style/sheet.css");

/// Of a cell with bars.
const BARS: &str = " class=\"bars\"";

/// A whole page that needs nothing else.
pub fn page(sheet: &Sheet) -> String {
    format!(
        "<!doctype html>\n<html lang=\"en\">\n<head>\n<meta charset=\"utf-8\">\n<title>{}</title>\n\
         <style>\n{STYLE}</style>\n</head>\n<body>\n{}</body>\n</html>\n",
        escaped(&sheet.name),
        article(sheet)
    )
}

fn article(sheet: &Sheet) -> String {
    let head = format!(
        "<div class=\"head\">\n{}{}</div>\n",
        element("h1", "", &sheet.name),
        element("p", "date", &sheet.date)
    );
    let (class, rest) = match &sheet.content {
        Content::Clear {
            facts,
            bars,
            frames,
        } => ("clear", clear(facts, bars, frames)),
        Content::Broken(sentences) => ("broken", broken(sentences)),
    };
    format!("<article class=\"sheet {class}\">\n{head}{rest}</article>\n")
}

fn clear(facts: &str, bars: &Result<String, String>, frames: &[Frame]) -> String {
    let why = bars.as_ref().err();
    let why = why.map(|why| element("p", "unbarred", why));
    let head = [
        element("p", "facts", facts),
        element("p", "standing", CLEAR),
        why.unwrap_or_default(),
        element("p", "notes", &notes("", bars)),
    ];
    let frames: String = frames.iter().map(frame).collect();
    head.concat() + &frames
}

fn broken(sentences: &[&str]) -> String {
    let items: String = sentences
        .iter()
        .map(|sentence| element("li", "", sentence))
        .collect();
    let (standing, what) = (
        element("p", "standing", BROKEN),
        element("p", "notes", WHAT),
    );
    format!("{standing}{what}<ul>\n{items}</ul>\n")
}

fn frame(frame: &Frame) -> String {
    let spans: String = frame.spans.iter().map(span).collect();
    let supports: String = frame.supports.iter().map(support).collect();
    let title = element("h2", "", &format!("{}, moments in kN·m", frame.title));
    let (span_heads, support_heads) = (
        heads(&["span", "length, mm", "section", "steel"], frame.bar_heads),
        heads(&["support", "at", "steel"], &[]),
    );
    let caption = element("caption", "", SUPPORTS);
    format!(
        "<section class=\"frame\">\n{title}\
         <table class=\"spans\">\n{span_heads}{spans}</table>\n\
         <table class=\"supports\">\n{caption}{support_heads}<tbody>\n{supports}</tbody>\n</table>\n\
         </section>\n"
    )
}

fn heads(first: &[&str], last: &[&str]) -> String {
    let first = first.iter().chain(&PARTS);
    let first: String = first.map(|words| cell("th", "", words)).collect();
    let last: String = last.iter().map(|words| cell("th", BARS, words)).collect();
    format!("<thead><tr>{first}{last}</tr></thead>\n")
}

/// Three rows, which the number and the length stand beside.
fn span(span: &Span) -> String {
    let over_all = " rowspan=\"3\"";
    let number = cell("th", over_all, &span.number.to_string());
    let length = cell("td", over_all, &span.length.to_string());
    let before = [number + &length, String::new(), String::new()];
    let rows = span.rows.iter().zip(before);
    let rows: String = rows
        .map(|(row, before)| format!("<tr>{before}{}</tr>\n", section(row)))
        .collect();
    format!("<tbody>\n{rows}</tbody>\n")
}

fn section(row: &Row) -> String {
    let (section, steel) = (cell("td", "", &row.section), cell("td", "", row.steel));
    let bars = row.bars.iter().flatten();
    let bars: String = bars.map(|bars| cell("td", BARS, &spaced(bars))).collect();
    format!("{section}{steel}{}{bars}", moments(row.moments))
}

fn support(support: &Support) -> String {
    let number = cell("th", "", &support.number.to_string());
    let (at, steel) = (cell("td", "", &support.at), cell("td", "", support.steel));
    format!("<tr>{number}{at}{steel}{}</tr>\n", moments(support.moments))
}

fn moments(moments: Section) -> String {
    let cells = moments.map(|moment| cell("td", " class=\"moment\"", &kn_m_of_n_cm(moment)));
    cells.concat()
}

/// On a line of its own.
fn element(name: &str, class: &str, words: &str) -> String {
    let class = match class {
        "" => String::new(),
        class => format!(" class=\"{class}\""),
    };
    cell(name, &class, words) + "\n"
}

fn cell(name: &str, attributes: &str, words: &str) -> String {
    format!("<{name}{attributes}>{}</{name}>", escaped(words))
}
