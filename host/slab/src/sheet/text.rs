//! The sheet as text, with the exact number beside each moment.

use super::units::{kn_m_of_n_cm, kn_m_of_n_m};
use super::{
    notes, spaced, Content, Frame, Row, Sheet, Span, BROKEN, CLEAR, PARTS, SUPPORTS, WHAT,
};
use crate::judge::Section;

pub fn text(sheet: &Sheet) -> String {
    let Sheet {
        name,
        date,
        content,
    } = sheet;
    let mut lines = vec![name.clone(), date.clone()];
    match content {
        Content::Clear {
            facts,
            bars,
            frames,
        } => {
            lines.extend([facts.clone(), CLEAR.to_string()]);
            lines.extend(bars.clone().err());
            lines.push(notes(", and after each the exact number in N·cm", bars));
            lines.extend(frames.iter().flat_map(frame));
        }
        Content::Broken(sentences) => {
            lines.extend([BROKEN.to_string(), WHAT.to_string()]);
            lines.extend(sentences.iter().map(|sentence| format!("  {sentence}")));
        }
    }
    let ended = lines.iter().map(|line| format!("{}\n", line.trim_end()));
    ended.collect()
}

fn frame(frame: &Frame) -> Vec<String> {
    let mut lines = vec![String::new(), frame.title.clone()];
    let spans = frame.spans.iter();
    lines.extend(spans.flat_map(|one| span(one, frame.bar_heads)));
    lines.push(format!("  {SUPPORTS}"));
    lines.extend(frame.supports.iter().map(|support| {
        let place = format!("{:>2}  {}", support.number, support.at);
        row(&place, support.steel, &cells(support.moments))
    }));
    lines
}

fn span(span: &Span, bar_heads: &[&str]) -> Vec<String> {
    let Span {
        number,
        length,
        whole,
        rows,
    } = span;
    let static_moment = kn_m_of_n_m(*whole);
    let heads = PARTS.iter().chain(bar_heads);
    let heads: Vec<String> = heads.map(ToString::to_string).collect();
    let mut lines = vec![
        format!(
            "  span {number}, {length} mm, static moment {static_moment} kN·m, exactly {whole} N·m"
        ),
        row("section", "steel", &heads),
    ];
    lines.extend(rows.iter().map(section));
    lines
}

fn section(found: &Row) -> String {
    let bars = found.bars.iter().flatten().map(spaced);
    let cells: Vec<String> = cells(found.moments).into_iter().chain(bars).collect();
    row(&found.section, found.steel, &cells)
}

/// Wide enough for the largest number.
fn cells(moments: Section) -> [String; 5] {
    moments.map(|moment| format!("{:>8}  {moment}", kn_m_of_n_cm(moment)))
}

fn row(place: &str, steel: &str, cells: &[String]) -> String {
    let cells: String = cells.iter().map(|cell| format!("{cell:<22}")).collect();
    format!("    {place:<15}{steel:<8}{cells}")
}
