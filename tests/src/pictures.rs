//! The pictures of folder docs/pictures, drawn from texts: which crate uses which, which section of the circuit reads which, and who runs
//! what and sees what. Boxes are in layers, each on one side of all that it uses.

use crate::report::Tally;
use crate::sections::{self, Section};
use std::collections::{BTreeMap, BTreeSet};
use std::fs;
use std::path::Path;

/// A box: its name, its lines below the name, how it is filled, and what it uses.
pub struct Node {
    pub name: String,
    pub lines: Vec<String>,
    pub fill: &'static str,
    pub uses: Vec<String>,
}

/// How a picture is drawn.
#[derive(Clone, Copy, PartialEq)]
pub enum Way {
    /// Each box above what it uses, to which arrows point; an arrow that follows from others is left out.
    Uses,
    /// Each box below what it reads, from which arrows come.
    Flow,
}

const MARGIN: f64 = 24.0;
const BOX_GAP: f64 = 22.0;
const BEND_GAP: f64 = 16.0;
const LAYER_GAP: f64 = 50.0;
const HEADING: f64 = 34.0;

/// Whether `to` can be reached from `from`, other than by their own edge.
fn round_about(edges: &BTreeSet<(usize, usize)>, from: usize, to: usize) -> bool {
    let mut seen = BTreeSet::new();
    let mut next: Vec<usize> = edges.iter().filter(|&&(a, b)| a == from && b != to).map(|edge| edge.1).collect();
    while let Some(node) = next.pop() {
        if node == to {
            return true;
        }
        if seen.insert(node) {
            next.extend(edges.iter().filter(|edge| edge.0 == node).map(|edge| edge.1));
        }
    }
    false
}

/// The edges from each box to what it uses.
fn edges(nodes: &[Node], way: Way) -> BTreeSet<(usize, usize)> {
    let place: BTreeMap<&str, usize> = nodes.iter().enumerate().map(|(k, node)| (node.name.as_str(), k)).collect();
    let used = |(k, node): (usize, &Node)| node.uses.iter().map(|name| (k, place[name.as_str()])).collect::<Vec<_>>();
    let all: BTreeSet<(usize, usize)> = nodes.iter().enumerate().flat_map(used).collect();
    all.iter().copied().filter(|&(from, to)| way == Way::Flow || !round_about(&all, from, to)).collect()
}

/// A layer for each node, above those of all that it uses; edges are made short.
fn layers(count: usize, edges: &BTreeSet<(usize, usize)>) -> Vec<usize> {
    let mut layer = vec![0; count];
    for _ in 0..count {
        for &(from, to) in edges {
            layer[from] = layer[from].max(layer[to] + 1);
        }
    }
    for _ in 0..count {
        for node in 0..count {
            let users: Vec<usize> = edges.iter().filter(|edge| edge.1 == node).map(|edge| layer[edge.0]).collect();
            let used = edges.iter().filter(|edge| edge.0 == node).count();
            if let Some(lowest) = users.iter().min().filter(|_| users.len() > used) {
                layer[node] = lowest - 1;
            }
        }
    }
    layer
}

/// A box or a bend of an edge, in its layer.
struct Spot {
    node: Option<usize>,
    width: f64,
    x: f64,
    above: Vec<usize>,
    below: Vec<usize>,
}

/// The spots, and each layer's from left to right.
struct Plan {
    spots: Vec<Spot>,
    rows: Vec<Vec<usize>>,
    /// Each edge's spots, from above.
    paths: Vec<Vec<usize>>,
}

/// A box's width, from its longest text.
fn width(node: &Node) -> f64 {
    let below = node.lines.iter().map(|line| 6.0 * line.chars().count() as f64);
    below.fold(8.4 * node.name.chars().count() as f64, f64::max) + 22.0
}

/// The boxes in layers, and a bend wherever an edge passes through a layer.
fn plan(nodes: &[Node], way: Way) -> Plan {
    let edges = edges(nodes, way);
    let layer = layers(nodes.len(), &edges);
    let mut rows = vec![vec![]; layer.iter().max().map_or(0, |top| top + 1)];
    let spot =
        |(k, node): (usize, &Node)| Spot { node: Some(k), width: width(node), x: 0.0, above: vec![], below: vec![] };
    let mut spots: Vec<Spot> = nodes.iter().enumerate().map(spot).collect();
    (0..nodes.len()).for_each(|k| rows[layer[k]].push(k));
    let mut paths = vec![];
    for &(from, to) in &edges {
        let mut path = vec![from];
        for row in (layer[to] + 1..layer[from]).rev() {
            rows[row].push(spots.len());
            path.push(spots.len());
            spots.push(Spot { node: None, width: 2.0, x: 0.0, above: vec![], below: vec![] });
        }
        path.push(to);
        for pair in path.windows(2) {
            spots[pair[0]].below.push(pair[1]);
            spots[pair[1]].above.push(pair[0]);
        }
        paths.push(path);
    }
    Plan { spots, rows, paths }
}

impl Plan {
    /// How many pairs of edges cross.
    fn crossings(&self) -> usize {
        let mut place = vec![0; self.spots.len()];
        self.rows.iter().for_each(|row| row.iter().enumerate().for_each(|(at, &k)| place[k] = at));
        let mut count = 0;
        for row in &self.rows {
            let down = |&k: &usize| self.spots[k].below.iter().map(|&b| (place[k], place[b])).collect::<Vec<_>>();
            let edges: Vec<(usize, usize)> = row.iter().flat_map(down).collect();
            for (i, a) in edges.iter().enumerate() {
                count += edges[..i].iter().filter(|b| (a.0 < b.0) != (a.1 < b.1) && a.0 != b.0 && a.1 != b.1).count();
            }
        }
        count
    }

    /// Sorts each layer by where its neighbours are, to and fro, and keeps the order with the fewest crossings.
    fn order(&mut self) {
        let mut best = (self.crossings(), self.rows.clone());
        for round in 0..40 {
            let down = round % 2 == 0;
            for step in 1..self.rows.len() {
                let row = if down { self.rows.len() - 1 - step } else { step };
                let beside = &self.rows[if down { row + 1 } else { row - 1 }];
                let place: BTreeMap<usize, usize> = beside.iter().enumerate().map(|(at, &k)| (k, at)).collect();
                let key = |at: usize, k: usize| {
                    let near = if down { &self.spots[k].above } else { &self.spots[k].below };
                    let sum: usize = near.iter().map(|k| 1_000 * place[k]).sum();
                    if near.is_empty() {
                        1_000 * at
                    } else {
                        sum / near.len()
                    }
                };
                let mut sorted: Vec<(usize, usize)> =
                    self.rows[row].iter().enumerate().map(|(at, &k)| (key(at, k), k)).collect();
                sorted.sort_by_key(|pair| pair.0);
                self.rows[row] = sorted.into_iter().map(|pair| pair.1).collect();
            }
            if self.crossings() < best.0 {
                best = (self.crossings(), self.rows.clone());
            }
        }
        self.rows = best.1;
    }

    /// The distance of two neighbours' middles.
    fn gap(&self, left: usize, right: usize) -> f64 {
        let boxes = self.spots[left].node.is_some() && self.spots[right].node.is_some();
        (self.spots[left].width + self.spots[right].width) / 2.0 + if boxes { BOX_GAP } else { BEND_GAP }
    }

    /// Puts each spot near the middle of its neighbours, as far as the order of its layer lets it.
    fn place(&mut self) {
        for row in self.rows.clone() {
            for pair in row.windows(2) {
                self.spots[pair[1]].x = self.spots[pair[0]].x + self.gap(pair[0], pair[1]);
            }
        }
        for _ in 0..200 {
            for row in self.rows.clone() {
                let middle = |k: usize| {
                    let spot = &self.spots[k];
                    let near: Vec<f64> = spot.above.iter().chain(&spot.below).map(|&k| self.spots[k].x).collect();
                    if near.is_empty() {
                        spot.x
                    } else {
                        near.iter().sum::<f64>() / near.len() as f64
                    }
                };
                let wished: Vec<f64> = row.iter().map(|&k| middle(k)).collect();
                let (mut right, mut left) = (wished.clone(), wished);
                for at in 1..row.len() {
                    right[at] = right[at].max(right[at - 1] + self.gap(row[at - 1], row[at]));
                    let at = row.len() - 1 - at;
                    left[at] = left[at].min(left[at + 1] - self.gap(row[at], row[at + 1]));
                }
                for (at, &k) in row.iter().enumerate() {
                    self.spots[k].x = (right[at] + left[at]) / 2.0;
                }
            }
        }
        let start = self.spots.iter().map(|spot| spot.x - spot.width / 2.0).fold(f64::MAX, f64::min);
        self.spots.iter_mut().for_each(|spot| spot.x += MARGIN - start);
    }
}

/// A plan with its heights: where each spot is on the page.
struct Page<'a> {
    nodes: &'a [Node],
    way: Way,
    plan: Plan,
    /// Each layer's height.
    tall: Vec<f64>,
}

impl<'a> Page<'a> {
    /// The boxes in order, each in its place.
    fn new(nodes: &'a [Node], way: Way) -> Page<'a> {
        let mut plan = plan(nodes, way);
        plan.order();
        plan.place();
        let mut page = Page { nodes, way, plan, tall: vec![] };
        let tall = |row: &Vec<usize>| row.iter().map(|&k| page.height(k)).fold(0.0, f64::max);
        page.tall = page.plan.rows.iter().map(tall).collect();
        page
    }

    /// A box's height; a bend has none.
    fn height(&self, k: usize) -> f64 {
        self.plan.spots[k].node.map_or(0.0, |node| 26.0 + 14.0 * self.nodes[node].lines.len() as f64)
    }

    /// The layer of a spot.
    fn row_of(&self, k: usize) -> usize {
        self.plan.rows.iter().position(|row| row.contains(&k)).expect("every spot is in a row")
    }

    /// Where a layer begins.
    fn top(&self, row: usize) -> f64 {
        let before = if self.way == Way::Uses { &self.tall[row + 1..] } else { &self.tall[..row] };
        MARGIN + HEADING + before.iter().map(|tall| tall + LAYER_GAP).sum::<f64>()
    }

    /// Where an edge leaves the box or the layer (side 1), or comes to it (side -1).
    fn end_of(&self, k: usize, side: f64) -> (f64, f64) {
        let row = self.row_of(k);
        let high = if self.plan.spots[k].node.is_some() { self.height(k) } else { self.tall[row] };
        (self.plan.spots[k].x, self.top(row) + (self.tall[row] + side * high) / 2.0)
    }

    /// The opening of the picture, and its heading.
    fn heading(&self, heading: &str, source: &str) -> String {
        let right = self.plan.spots.iter().map(|spot| spot.x + spot.width / 2.0).fold(0.0, f64::max);
        let wide = (right + MARGIN).max(8.2 * heading.chars().count() as f64 + 2.0 * MARGIN);
        let high = MARGIN + HEADING + self.tall.iter().map(|tall| tall + LAYER_GAP).sum::<f64>() - LAYER_GAP + MARGIN;
        format!(
            "<svg xmlns=\"http://www.w3.org/2000/svg\" width=\"{wide:.0}\" height=\"{high:.0}\" viewBox=\"0 0 {wide:.0} {high:.0}\" font-family=\"sans-serif\">\n\
             <!-- drawn by make pictures from {source} -->\n<title>{heading}</title>\n\
             <rect width=\"100%\" height=\"100%\" fill=\"#ffffff\"/>\n\
             <text x=\"{MARGIN}\" y=\"{:.0}\" font-size=\"15\" fill=\"#222222\">{heading}</text>\n",
            MARGIN + 8.0
        )
    }

    /// An edge through its spots, with the head of its arrow.
    fn edge(&self, path: &[usize]) -> String {
        let path: Vec<usize> = if self.way == Way::Uses { path.to_vec() } else { path.iter().rev().copied().collect() };
        let (leaves, comes) = (|k| self.end_of(k, 1.0), |k| self.end_of(k, -1.0));
        let start = leaves(path[0]);
        let mut line = format!("M{:.0} {:.0}", start.0, start.1);
        for pair in path.windows(2) {
            let (a, b) = (leaves(pair[0]), comes(pair[1]));
            let half = (a.1 + b.1) / 2.0;
            line +=
                &format!(" L{:.0} {:.0} C{:.0} {half:.0} {:.0} {half:.0} {:.0} {:.0}", a.0, a.1, a.0, b.0, b.0, b.1);
        }
        let end = comes(path[path.len() - 1]);
        format!(
            "<path d=\"{line}\" fill=\"none\" stroke=\"#777777\" stroke-width=\"1.2\"/>\n\
             <path d=\"M{:.0} {:.0} l-4 -8 l8 0 z\" fill=\"#777777\"/>\n",
            end.0, end.1
        )
    }

    /// A box with its name and lines.
    fn node(&self, k: usize) -> String {
        let (node, spot, row) = (&self.nodes[k], &self.plan.spots[k], self.row_of(k));
        let y = self.top(row) + (self.tall[row] - self.height(k)) / 2.0;
        let mut svg = format!(
            "<rect x=\"{:.0}\" y=\"{y:.0}\" width=\"{:.0}\" height=\"{:.0}\" rx=\"5\" fill=\"{}\" stroke=\"#444444\"/>\n",
            spot.x - spot.width / 2.0,
            spot.width,
            self.height(k),
            node.fill
        );
        let text = |y: f64, size: usize, text: &str| {
            format!("<text x=\"{:.0}\" y=\"{y:.0}\" font-size=\"{size}\" text-anchor=\"middle\" fill=\"#111111\">{text}</text>\n", spot.x)
        };
        svg += &text(y + 18.0, 14, &node.name);
        for (at, line) in node.lines.iter().enumerate() {
            svg += &text(y + 33.0 + 14.0 * at as f64, 11, line);
        }
        svg
    }
}

/// The picture, with a heading.
pub fn draw(heading: &str, source: &str, nodes: &[Node], way: Way) -> String {
    let page = Page::new(nodes, way);
    let edges: String = page.plan.paths.iter().map(|path| page.edge(path)).collect();
    let boxes: String = (0..nodes.len()).map(|k| page.node(k)).collect();
    page.heading(heading, source) + &edges + &boxes + "</svg>\n"
}

const LIBRARY: &str = "#e3edf9";
const PROGRAM: &str = "#fbe3c8";
const KIT: &str = "#eeeeee";

/// Every crate, and the kit's libraries that they use.
fn crates(text: &str, folder: &Path) -> Vec<Node> {
    let lines = text.lines().filter(|line| !line.starts_with('#')).filter_map(|line| line.split_once(':'));
    // `staticlib` may follow the name
    let name = |head: &str| head.split_whitespace().next().unwrap_or("").to_string();
    let own: Vec<(String, Vec<String>)> =
        lines.map(|(head, uses)| (name(head), uses.split_whitespace().map(String::from).collect())).collect();
    let kit: BTreeSet<&String> =
        own.iter().flat_map(|(_, uses)| uses).filter(|name| !own.iter().any(|(own, _)| own == *name)).collect();
    let node = |(name, uses): &(String, Vec<String>)| {
        let program = folder.join(name).join("src/main.rt").exists();
        Node { name: name.clone(), lines: vec![], fill: if program { PROGRAM } else { LIBRARY }, uses: uses.clone() }
    };
    let outside =
        |name: &&String| Node { name: (*name).clone(), lines: vec!["of the kit".into()], fill: KIT, uses: vec![] };
    // those that use most come first: from there the layers are sorted into a narrow picture
    own.iter().rev().map(node).chain(kit.iter().map(outside)).collect()
}

/// What is known to be wrong in a picture's text.
fn invalid(fault: String) -> std::io::Error {
    std::io::Error::new(std::io::ErrorKind::InvalidData, fault)
}

const STATIONS: &str = "docs/pictures/stations.txt";

/// Who runs what: a line a box, with its name, its lines separated by `/`, what it is, and the names of what it reads separated by `;`.
fn stations(text: &str) -> Result<Vec<Node>, String> {
    let node = |line: &str| match line.split('|').map(str::trim).collect::<Vec<&str>>()[..] {
        [name, lines, kind, reads] => {
            let fill = match kind {
                "data" => LIBRARY,
                "program" => PROGRAM,
                "outside" => KIT,
                _ => return Err(format!("{line:?}: {kind:?} is no kind of box")),
            };
            let parts = |text: &str, sign| text.split(sign).map(|part| part.trim().into()).collect();
            let uses = if reads.is_empty() { vec![] } else { parts(reads, ';') };
            Ok(Node { name: name.into(), lines: parts(lines, '/'), fill, uses })
        }
        _ => Err(format!("{line:?} is no box")),
    };
    let boxes = text.lines().filter(|line| !line.is_empty() && !line.starts_with('#')).map(node);
    let boxes: Vec<Node> = boxes.collect::<Result<_, _>>()?;
    let missing = boxes.iter().flat_map(|node| &node.uses).find(|name| !boxes.iter().any(|node| node.name == **name));
    missing.map_or(Ok(()), |name| Err(format!("there is no box {name:?}")))?;
    Ok(boxes)
}

/// The circuit's sections as their text lists them.
fn circuit(root: &Path) -> std::io::Result<Vec<Section>> {
    let circuit = sections::read(&fs::read_to_string(root.join(sections::SOURCE))?);
    circuit.map_err(invalid)
}

/// Each picture's file and what it should hold.
pub fn all(root: &Path) -> std::io::Result<Vec<(&'static str, String)>> {
    let crates_text = fs::read_to_string(root.join("crates.txt"))?;
    let circuit = circuit(root)?;
    let stations = stations(&fs::read_to_string(root.join(STATIONS))?).map_err(invalid)?;
    let crates = crates(&crates_text, &root.join("crates"));
    let uses = "Who uses whom: an arrow points to what a crate uses; programs are orange";
    let flow = "The circuit's sections for n variables and m rows (b binary digits of n − 1, s the sum of n − 1 divided by 2^d over them, h = m divided by 2): \
                arrows go from a section to those that read it";
    let seen = "A drill, where one desk sees every table, and two stations that see only their own: these need a secure back end \
                (grey: not included)";
    Ok(vec![
        ("docs/pictures/crates.svg", draw(uses, "crates.txt", &crates, Way::Uses)),
        ("docs/pictures/circuit.svg", draw(flow, sections::SOURCE, &sections::nodes(&circuit), Way::Flow)),
        ("docs/pictures/stations.svg", draw(seen, STATIONS, &stations, Way::Flow)),
    ])
}

/// Whether each picture is what its text gives, and the circuit's sections come to the laws.
pub fn run(root: &Path) -> std::io::Result<Tally> {
    let mut tally = Tally::default();
    for (file, picture) in all(root)? {
        let current = fs::read_to_string(root.join(file)).map_or(false, |drawn| drawn == picture);
        tally.count(current);
        if !current {
            println!("FAILED: {file} is not current; make pictures draws it");
        }
    }
    let unlike = sections::unlike_laws(&circuit(root)?);
    tally.count(unlike.is_none());
    unlike.iter().for_each(|unlike| println!("FAILED {}: {unlike}", sections::SOURCE));
    println!("pictures drawn from their texts: {} passed, {} failed", tally.passed, tally.failed);
    Ok(tally)
}
