//! What pages and pictures have in common.

/// The text as XML has it.
pub fn escaped(text: &str) -> String {
    let mut escaped = String::new();
    for c in text.chars() {
        match c {
            '&' => escaped.push_str("&amp;"),
            '<' => escaped.push_str("&lt;"),
            '>' => escaped.push_str("&gt;"),
            '"' => escaped.push_str("&quot;"),
            '\n' | '\t' => escaped.push(c),
            c if c.is_control() => escaped.push('.'),
            c => escaped.push(c),
        }
    }
    escaped
}

/// How pictures look.
pub const STYLE: &str = "
text { font: 11px sans-serif; fill: #222; }
text.value { text-anchor: middle; }
text.role, text.cycle { font-size: 9px; fill: #777; }
text.role { text-anchor: end; font-size: 8px; }
text.group { font-weight: bold; fill: #555; }
text.name { font-family: monospace; }
line.grid { stroke: #ddd; }
path.level { fill: none; stroke: #06642c; stroke-width: 1.5; }
path.bus { fill: #eef4fb; stroke: #2b5c92; }
path.none { fill: #f6f6f6; stroke: #aaa; }
rect.undefined { fill: #f7d9d6; stroke: #b3392f; }
rect.port { fill: #e3e3e3; stroke: #444; }
rect.constant { fill: #fff; stroke: #bbb; }
rect.part { fill: #fff; stroke: #444; }
rect.choice { fill: #eef4fb; stroke: #2b5c92; }
rect.delay { fill: #fdf3d8; stroke: #8a6a12; stroke-width: 2; }
rect.feedback { fill: #f3e9f7; stroke: #6d3a86; }
path.edge { fill: none; stroke: #555; }
path.back { fill: none; stroke: #6d3a86; stroke-dasharray: 4 3; }
";
