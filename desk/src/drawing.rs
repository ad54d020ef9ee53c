//! The graph of a circuit as a picture, from left to right: each node stands in
//! a column to the right of all that it uses.

use std::collections::HashMap;
use std::fmt::Write;

use crate::graph::{Graph, Kind};
use crate::xml::{escaped, STYLE};

const LETTER: usize = 7;
const LINE: usize = 14;
const GAP: usize = 14;
const BETWEEN: usize = 56;
/// The distance of edges that lead back, and how many stand side by side.
const LANE: usize = 6;
const LANES: usize = 5;

/// A node of the graph, or a bend of an edge that passes a column.
struct Cell {
    node: Option<usize>,
    column: usize,
    width: usize,
    height: usize,
    x: usize,
    y: usize,
}

struct Layout<'a> {
    graph: &'a Graph,
    cells: Vec<Cell>,
    /// The cells of each column, from the top.
    columns: Vec<Vec<usize>>,
    /// Each edge of the graph as the cells it goes through, from left to right;
    /// one that leads back to a feedback has its two ends alone.
    routes: Vec<Vec<usize>>,
    /// The left and right edge of each column, and the bottom of the last cell.
    edges: Vec<(usize, usize)>,
    bottom: usize,
}

/// The drawing of a graph.
pub fn svg(graph: &Graph) -> String {
    let mut layout = Layout::new(graph);
    layout.order();
    let (width, height) = layout.place();
    layout.draw(width, height)
}

/// The drawing as a file of its own, which brings its style.
pub fn file(graph: &Graph) -> String {
    let svg = svg(graph);
    let style = format!("<style>{STYLE}</style>\n<title>");
    format!("<?xml version=\"1.0\" encoding=\"UTF-8\"?>\n{}", svg.replacen("<title>", &style, 1))
}

/// The column of each node: to the right of all that it uses, and to the left of
/// all that uses it. Edges that lead back to a feedback do not count.
fn columns(graph: &Graph) -> Vec<usize> {
    let mut columns: Vec<usize> = vec![0; graph.nodes.len()];
    // Nodes are made after what they use, but for the edges that lead back.
    let mut uses: HashMap<usize, Vec<usize>> = HashMap::new();
    for edge in graph.edges.iter().filter(|edge| !edge.back) {
        uses.entry(edge.to).or_default().push(edge.from);
    }
    for node in 0..graph.nodes.len() {
        let used = uses.get(&node).into_iter().flatten();
        columns[node] = used.map(|from| columns[*from] + 1).max().unwrap_or(0);
    }
    // The output stands last.
    let last = columns.iter().max().copied().unwrap_or(0);
    for (node, column) in columns.iter_mut().enumerate() {
        if graph.nodes[node].kind == Kind::Output {
            *column = last.max(1);
        }
    }
    // What is used moves to the right, up to its first use: edges become short.
    let mut users: HashMap<usize, Vec<usize>> = HashMap::new();
    for edge in graph.edges.iter().filter(|edge| !edge.back) {
        users.entry(edge.from).or_default().push(edge.to);
    }
    for node in (0..graph.nodes.len()).rev() {
        let stays = matches!(graph.nodes[node].kind, Kind::Input | Kind::Feedback | Kind::Output);
        let first = users.get(&node).into_iter().flatten().map(|user| columns[*user]).min();
        if let (false, Some(first)) = (stays, first) {
            columns[node] = first.saturating_sub(1).max(columns[node]);
        }
    }
    columns
}

/// The lines that a node shows.
fn lines(graph: &Graph, node: usize) -> Vec<String> {
    let node = &graph.nodes[node];
    let names = (!node.names.is_empty()).then(|| format!("{} =", node.names.join(" = ")));
    names.into_iter().chain(node.lines.iter().cloned()).collect()
}

impl<'a> Layout<'a> {
    fn new(graph: &'a Graph) -> Layout<'a> {
        let at = columns(graph);
        let mut columns = vec![Vec::new(); at.iter().max().map_or(0, |last| last + 1)];
        let mut cells = Vec::new();
        for node in 0..graph.nodes.len() {
            let lines = lines(graph, node);
            let letters = lines.iter().map(|line| line.chars().count()).max().unwrap_or(0);
            // Each value that a node uses has a line of its own.
            let used = graph.edges.iter().filter(|edge| edge.to == node && !edge.back).count();
            let height = (LINE * lines.len() + 10).max(LINE * used);
            let width = LETTER * letters + 16;
            let column = at[node];
            columns[column].push(cells.len());
            cells.push(Cell { node: Some(node), column, width, height, x: 0, y: 0 });
        }
        let mut routes = Vec::new();
        for edge in &graph.edges {
            let mut route = vec![edge.from];
            for column in at[edge.from] + 1..at[edge.to] {
                columns[column].push(cells.len());
                route.push(cells.len());
                cells.push(Cell { node: None, column, width: 0, height: 2, x: 0, y: 0 });
            }
            route.push(edge.to);
            routes.push(route);
        }
        Layout { graph, cells, columns, routes, edges: Vec::new(), bottom: 0 }
    }

    /// Puts each cell near the middle of those that it is joined with, to the
    /// right and to the left in turn.
    fn order(&mut self) {
        let joined = self.joined();
        let mut rank = vec![0.0; self.cells.len()];
        for column in &self.columns {
            for (row, cell) in column.iter().enumerate() {
                rank[*cell] = row as f64;
            }
        }
        let count = self.columns.len();
        for round in 0..8 {
            for step in 0..count {
                let at = if round % 2 == 0 { step } else { count - 1 - step };
                let middle = |cell: usize| {
                    let side = &joined[cell][round % 2];
                    let ranks = side.iter().map(|other| rank[*other]);
                    match side.len() {
                        0 => rank[cell],
                        many => ranks.sum::<f64>() / many as f64,
                    }
                };
                let column = self.columns[at].iter();
                let mut sorted: Vec<(f64, usize)> =
                    column.map(|cell| (middle(*cell), *cell)).collect();
                sorted.sort_by(|one, other| one.0.total_cmp(&other.0));
                self.columns[at] = sorted.into_iter().map(|(_, cell)| cell).collect();
                for (row, cell) in self.columns[at].iter().enumerate() {
                    rank[*cell] = row as f64;
                }
            }
        }
    }

    /// The cells that each is joined with on its left, and on its right.
    fn joined(&self) -> Vec<[Vec<usize>; 2]> {
        let mut joined = vec![[Vec::new(), Vec::new()]; self.cells.len()];
        for (edge, route) in self.graph.edges.iter().zip(&self.routes) {
            for pair in route.windows(2).filter(|_| !edge.back) {
                joined[pair[1]][0].push(pair[0]);
                joined[pair[0]][1].push(pair[1]);
            }
        }
        joined
    }

    /// Gives every cell its place; the width and height of the whole.
    fn place(&mut self) -> (usize, usize) {
        let height = |layout: &Layout, column: &[usize]| -> usize {
            column.iter().map(|cell| layout.cells[*cell].height + GAP).sum()
        };
        let tallest = self.columns.iter().map(|c| height(self, c)).max().unwrap_or(0) + GAP;
        let back = self.graph.edges.iter().filter(|edge| edge.back).count();
        let mut x = if back == 0 { 10 } else { 10 + LANE * (back.min(LANES) + 1) };
        for column in self.columns.clone() {
            let mut y = (tallest - height(self, &column)) / 2;
            let widest = column.iter().map(|cell| self.cells[*cell].width).max().unwrap_or(0);
            for cell in column {
                let cell = &mut self.cells[cell];
                cell.x = x + (widest - cell.width) / 2;
                cell.y = y;
                if cell.node.is_none() {
                    cell.x = x;
                    cell.width = widest;
                }
                y += cell.height + GAP;
            }
            self.edges.push((x, x + widest));
            x += widest + BETWEEN;
        }
        self.bottom = tallest.max(40);
        let room = if back == 0 { 10 } else { LANE * (LANES + 2) };
        (x.saturating_sub(BETWEEN) + room, self.bottom + LANE * (back + 1))
    }

    fn draw(&self, width: usize, height: usize) -> String {
        let mut svg = format!(
            "<svg xmlns=\"http://www.w3.org/2000/svg\" class=\"drawing\" width=\"{width}\" \
             height=\"{height}\" viewBox=\"0 0 {width} {height}\" role=\"img\">\n\
             <title>The circuit</title>\n"
        );
        svg += "<defs><marker id=\"arrow\" viewBox=\"0 0 8 8\" refX=\"8\" refY=\"4\" \
                markerWidth=\"7\" markerHeight=\"7\" orient=\"auto-start-reverse\">\
                <path d=\"M0 0 L8 4 L0 8 Z\"/></marker></defs>\n";
        let mut used = vec![0; self.cells.len()];
        let mut lane = 0;
        for (edge, route) in self.graph.edges.iter().zip(&self.routes) {
            if edge.back {
                lane += 1;
                self.back(edge.from, edge.to, lane, &mut svg);
            } else {
                used[edge.to] += 1;
                self.edge(edge.label, route, self.port(edge.to, used[edge.to]), &mut svg);
            }
        }
        for cell in &self.cells {
            if let Some(node) = cell.node {
                self.node(node, cell, &mut svg);
            }
        }
        svg + "</svg>\n"
    }

    /// The height at which a node takes a value, the first one from 1.
    fn port(&self, node: usize, number: usize) -> usize {
        let all = self.graph.edges.iter().filter(|edge| edge.to == node && !edge.back).count();
        let cell = &self.cells[node];
        cell.y + cell.height * (2 * number - 1) / (2 * all.max(1))
    }

    /// An edge from left to right, which ends at a height.
    fn edge(&self, label: &str, route: &[usize], end: usize, svg: &mut String) {
        let cells: Vec<&Cell> = route.iter().map(|cell| &self.cells[*cell]).collect();
        let middle = |cell: &Cell| cell.y + cell.height / 2;
        let mut path = String::new();
        for pair in cells.windows(2) {
            let (x, y) = (pair[0].x + pair[0].width, middle(pair[0]));
            let to_y = if pair[1].node.is_some() { end } else { middle(pair[1]) };
            let to_x = pair[1].x;
            let bend = (x + to_x) / 2;
            let begin = if path.is_empty() { "M" } else { "L" };
            let _ = write!(path, "{begin}{x} {y} C{bend} {y} {bend} {to_y} {to_x} {to_y} ");
            if pair[1].node.is_none() {
                let _ = write!(path, "H{} ", pair[1].x + pair[1].width);
            }
        }
        let path = path.trim_end();
        let _ = writeln!(svg, "<path class=\"edge\" marker-end=\"url(#arrow)\" d=\"{path}\"/>");
        if let (false, Some(last)) = (label.is_empty(), cells.last()) {
            let (x, y) = (last.x.saturating_sub(9), end.saturating_sub(2));
            let _ = writeln!(svg, "<text class=\"role\" x=\"{x}\" y=\"{y}\">{label}</text>");
        }
    }

    /// An edge that leads back to a feedback, below all cells.
    fn back(&self, from: usize, to: usize, lane: usize, svg: &mut String) {
        let (start, end) = (&self.cells[from], &self.cells[to]);
        let aside = LANE * (1 + (lane - 1) % LANES);
        let (x, y) = (start.x + start.width, start.y + start.height / 2);
        let right = self.edges[start.column].1 + aside;
        let left = self.edges[end.column].0.saturating_sub(aside + LANE);
        let (below, to_x, to_y) =
            (self.bottom + LANE * lane - LANE / 2, end.x, end.y + end.height / 2);
        let path = format!("M{x} {y} H{right} V{below} H{left} V{to_y} H{to_x}");
        let _ = writeln!(svg, "<path class=\"back\" marker-end=\"url(#arrow)\" d=\"{path}\"/>");
    }

    fn node(&self, node: usize, cell: &Cell, svg: &mut String) {
        let Cell { x, y, width, height, .. } = *cell;
        let (class, round) = match self.graph.nodes[node].kind {
            Kind::Input | Kind::Output => ("port", 2),
            Kind::Constant => ("constant", 2),
            Kind::Part => ("part", 8),
            Kind::Choice => ("choice", 0),
            Kind::Delay => ("delay", 0),
            Kind::Feedback => ("feedback", 12),
        };
        let place = escaped(&self.graph.nodes[node].place);
        let _ = writeln!(svg, "<g><title>{place}</title>");
        let _ = writeln!(
            svg,
            "<rect class=\"{class}\" x=\"{x}\" y=\"{y}\" width=\"{width}\" height=\"{height}\" \
             rx=\"{round}\"/>"
        );
        for (at, line) in lines(self.graph, node).iter().enumerate() {
            let (x, y) = (x + width / 2, y + LINE * (at + 1) + 1);
            let line = escaped(line);
            let _ = writeln!(svg, "<text class=\"value\" x=\"{x}\" y=\"{y}\">{line}</text>");
        }
        svg.push_str("</g>\n");
    }
}
