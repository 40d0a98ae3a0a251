//! A sheet read back: the figures that it draws, in sides of a hexagon, and the texts that it shows.

use crate::xml::{parse, Element};

pub struct Sheet {
    pub elements: Vec<Element>,
}

/// A figure's corners.
pub type Figure = Vec<(f64, f64)>;

impl Sheet {
    pub fn of(svg: &str) -> Sheet {
        Sheet { elements: parse(svg).unwrap_or_else(|wrong| panic!("no XML: {wrong}")) }
    }

    /// The sheet within a page.
    pub fn of_page(html: &str) -> Sheet {
        let (from, to) = (html.find("<svg").expect("a sheet"), html.find("</svg>").expect("its end"));
        Sheet::of(&html[from..to + "</svg>".len()])
    }

    pub fn root(&self, name: &str) -> &str {
        self.elements[0].get(name)
    }

    /// Whether an element stands, however deep, within the one of this id.
    fn stands_in(&self, element: &Element, id: &str) -> bool {
        let around = |at: Option<usize>| at.map(|at| &self.elements[at]);
        std::iter::successors(around(element.within), |outer| around(outer.within)).any(|outer| outer.get("id") == id)
    }

    /// The elements of a name within the one of this id.
    pub fn all<'a>(&'a self, id: &'a str, name: &'a str) -> impl Iterator<Item = &'a Element> {
        self.elements.iter().filter(move |element| element.name == name && self.stands_in(element, id))
    }

    /// The texts within the element of this id.
    pub fn texts(&self, id: &str) -> Vec<String> {
        self.all(id, "text").map(|element| element.text.clone()).collect()
    }

    /// How often an element of this id moves to a new figure or point.
    pub fn moves(&self, id: &str) -> usize {
        self.all(id, "path").map(|path| path.get("d").matches('m').count()).sum()
    }

    /// The figures within the element of this id, in millimetres from the point [0, 0, 0].
    pub fn figures(&self, id: &str) -> Vec<Figure> {
        let scaled = |path: &Element| {
            let (x, y) = numbers(path.get("transform"));
            figures(path.get("d")).into_iter().map(move |list| list.into_iter().map(|(u, v)| (u * x, v * y)).collect())
        };
        self.all(id, "path").flat_map(|path| scaled(path).collect::<Vec<Figure>>()).collect()
    }

    /// Millimetres a side, by the scale bar.
    pub fn side(&self) -> f64 {
        let length: f64 = self.all("bar", "rect").next().expect("a bar").get("width").parse().expect("a length");
        let text = &self.texts("bar")[0];
        length / text.split(' ').next().expect("a number").parse::<f64>().expect("a number")
    }
}

/// The two numbers of a transform.
fn numbers(transform: &str) -> (f64, f64) {
    let inner = transform.split_once('(').expect("a transform").1.trim_end_matches(')');
    let (x, y) = inner.split_once(' ').expect("two numbers");
    (x.parse().expect("a number"), y.parse().expect("a number"))
}

/// A path of moves, lines and ends, all relative, followed by a reader of its own.
fn figures(path: &str) -> Vec<Figure> {
    let (mut all, mut figure, mut at, mut command): (Vec<Figure>, Figure, (f64, f64), char) = (Vec::new(), Vec::new(), (0.0, 0.0), ' ');
    let mut rest = path;
    while let Some(first) = rest.chars().next() {
        if first.is_ascii_alphabetic() {
            (command, rest) = (first, &rest[1..]);
            if command == 'z' {
                at = figure[0];
                all.push(std::mem::take(&mut figure));
            }
            continue;
        }
        let (x, y) = match command {
            'h' => (number(&mut rest), 0.0),
            'v' => (0.0, number(&mut rest)),
            _ => (number(&mut rest), number(&mut rest)),
        };
        at = (at.0 + x, at.1 + y);
        figure.push(at);
        command = if command == 'm' { 'l' } else { command };
    }
    all
}

/// The number that a text begins with, which is taken off it.
fn number(rest: &mut &str) -> f64 {
    let text = rest.trim_start_matches([' ', ',']);
    let end = text.char_indices().skip(1).find(|(_, c)| !c.is_ascii_digit() && *c != '.').map_or(text.len(), |(at, _)| at);
    let (number, after) = text.split_at(end);
    *rest = after;
    number.parse().unwrap_or_else(|_| panic!("no number: {number}"))
}
