//! One page about a run: the text, the waves and the drawing. It needs no other
//! file and no script, and is well-formed XML.

use crate::circuit::Accepted;
use crate::drawing;
use crate::graph::graph;
use crate::signals::Signals;
use crate::waves;
use crate::wording::grouped;
use crate::xml::{escaped, STYLE};

const PAGE_STYLE: &str = "
body { font: 15px/1.45 sans-serif; margin: 2em; color: #222; }
h1 { font-size: 1.4em; } h2 { font-size: 1.1em; margin-top: 1.6em; }
pre { background: #f7f7f7; padding: .8em; overflow-x: auto; }
pre i { color: #999; font-style: normal; user-select: none; }
table { border-collapse: collapse; } td, th { padding: .1em .8em .1em 0; text-align: left; }
.wide { overflow-x: auto; }
@media print {
  body { margin: 0; font-size: 10pt; }
  pre { white-space: pre-wrap; font-size: 7.5pt; }
  .wide { overflow: visible; } .wide svg { max-width: 100%; height: auto; }
  h2 { break-after: avoid; } svg { break-inside: avoid; }
}
";

/// The page of a circuit and the cycles of its run; `all` is how many cycles the
/// stimulus has.
pub fn page(accepted: &Accepted, signals: &Signals, cycles: &[Vec<u16>], all: u64) -> String {
    let circuit = &accepted.circuit;
    let types = circuit.types();
    let title = escaped(&circuit.source.name);
    let (input, output) = (types.label(accepted.input), types.label(accepted.output));
    let (input, output) = (escaped(&input.replace('`', "")), escaped(&output.replace('`', "")));
    let mut page = String::from("<!DOCTYPE html>\n");
    page += "<html xmlns=\"http://www.w3.org/1999/xhtml\" lang=\"en\">\n<head>\n";
    page += "<meta charset=\"utf-8\"/>\n";
    page += &format!("<title>{title}</title>\n<style>{PAGE_STYLE}{STYLE}</style>\n");
    page += &format!("</head>\n<body>\n<h1>{title}</h1>\n");
    let records = grouped(circuit.records.len());
    page += &format!("<p>Input {input}, output {output}, {records} records.</p>\n");
    page += &text(accepted);
    page += "<h2>The run</h2>\n";
    let shown = grouped(cycles.len());
    page += &match all {
        all if all > cycles.len() as u64 => {
            format!("<p>The first {shown} of {} cycles.</p>\n", grouped(all as usize))
        }
        1 => "<p>One cycle.</p>\n".to_string(),
        _ => format!("<p>{shown} cycles.</p>\n"),
    };
    page += &format!("<div class=\"wide\">\n{}</div>\n", waves::svg(signals, cycles));
    page += "<h2>The circuit</h2>\n";
    page += &format!("<div class=\"wide\">\n{}</div>\n", drawing::svg(&graph(accepted)));
    page + "</body>\n</html>\n"
}

/// The text with the numbers of its lines.
fn text(accepted: &Accepted) -> String {
    let source = &accepted.circuit.source;
    if source.is_sheet() {
        return String::new();
    }
    let text = String::from_utf8_lossy(&source.bytes);
    let mut section = String::from("<h2>The text</h2>\n<pre>");
    for (number, line) in text.trim_end().lines().enumerate() {
        section += &format!("<i>{:>4}  </i>{}\n", number + 1, escaped(line));
    }
    section + "</pre>\n"
}
