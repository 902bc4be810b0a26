//! Document 01, "The lean netlist": roots, kept points, and the wires by rising target.

use crate::netlist::*;

/// What stands at an input terminal.
#[derive(Clone, Copy, PartialEq, Eq)]
enum Feed {
    Open,
    Pin,
    Driver(Output),
}

/// What is known of the root of an output terminal.
#[derive(Clone, Copy, PartialEq, Eq)]
enum Root {
    Unknown,
    /// On the way that is being followed now.
    Underway,
    Known(Output),
}

struct Roots {
    feeds: Vec<Feed>,
    is_point: Vec<bool>,
    roots: Vec<Root>,
}

/// The lean netlist of a full one.
pub fn lean(full: &Netlist) -> Netlist {
    let mut roots = Roots::of(full);
    let mut made = Netlist::default();
    for (&element, &node) in full.elements.iter().zip(&full.makers) {
        match element {
            Element::Part { .. } => {
                made.elements.push(element);
                made.makers.push(node);
                for to in element.inputs() {
                    if let Feed::Driver(driver) = roots.feed(to) {
                        made.wires.push(Wire { from: roots.root(driver), to });
                    }
                }
            }
            Element::Point { input } => {
                let own = element.output();
                if roots.root(own) == own {
                    made.elements.push(element);
                    made.makers.push(node);
                    if roots.feed(input) != Feed::Pin {
                        made.wires.push(Wire { from: own, to: input });
                    }
                }
            }
        }
    }
    for &pin in &full.pins {
        made.pins.push(match pin {
            Terminal::Input(_) => pin,
            Terminal::Output(output) => Terminal::Output(roots.root(output)),
        });
    }
    // Elements come with rising terminals, so the wires already do.
    debug_assert!(made.wires.windows(2).all(|two| two[0].to < two[1].to));
    made
}

/// The lowest input of a kept ring point: no pin feeds it.
pub fn ring_point(lean: &Netlist) -> Option<Input> {
    let points = lean.elements.iter().filter_map(|element| match *element {
        Element::Point { input } => Some(input),
        Element::Part { .. } => None,
    });
    points.filter(|&input| !lean.pins.contains(&Terminal::Input(input))).min()
}

impl Roots {
    fn of(full: &Netlist) -> Roots {
        let terminals = full.elements.iter().map(|element| element.terminals()).sum();
        let mut feeds = vec![Feed::Open; terminals];
        let mut is_point = vec![false; terminals];
        for wire in &full.wires {
            feeds[usize::from(wire.to.0)] = Feed::Driver(wire.from);
        }
        for pin in &full.pins {
            if let Terminal::Input(input) = pin {
                feeds[usize::from(input.0)] = Feed::Pin;
            }
        }
        for element in &full.elements {
            if let Element::Point { .. } = element {
                is_point[usize::from(element.output().0)] = true;
            }
        }
        Roots { feeds, is_point, roots: vec![Root::Unknown; terminals] }
    }

    fn feed(&self, input: Input) -> Feed {
        self.feeds[usize::from(input.0)]
    }

    /// Follow the drivers back, then write the root on the whole way, so that no terminal is
    /// followed twice.
    fn root(&mut self, output: Output) -> Output {
        let mut way: Vec<Output> = Vec::new();
        let mut here = output;
        let root = loop {
            match self.roots[usize::from(here.0)] {
                Root::Known(root) => break root,
                Root::Underway => break self.lowest_of_ring(here),
                Root::Unknown => {}
            }
            way.push(here);
            if !self.is_point[usize::from(here.0)] {
                break here;
            }
            self.roots[usize::from(here.0)] = Root::Underway;
            match self.feed(Input(here.0 - 1)) {
                Feed::Driver(driver) => here = driver,
                Feed::Pin | Feed::Open => break here,
            }
        };
        for passed in way {
            self.roots[usize::from(passed.0)] = Root::Known(root);
        }
        root
    }

    /// The lowest output on the ring of points through this one.
    fn lowest_of_ring(&self, start: Output) -> Output {
        let mut lowest = start;
        let mut here = start;
        while let Feed::Driver(driver) = self.feed(Input(here.0 - 1)) {
            lowest = lowest.min(driver);
            here = driver;
            if here == start {
                break;
            }
        }
        lowest
    }
}
