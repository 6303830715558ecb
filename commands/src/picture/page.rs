//! The elements of a picture: where each part of the plan stands on the page, and how a block is labelled.

use super::words::*;
use super::*;

/// The elements, in the order in which they are painted.
#[derive(Default)]
pub struct Page {
    body: String,
}

impl Page {
    pub fn put(&mut self, element: std::fmt::Arguments) {
        // a String takes whatever is written
        let _ = self.body.write_fmt(element);
        self.body.push('\n');
    }

    pub fn text(&mut self, class: &str, x: f64, y: f64, text: &str) {
        self.put(format_args!("<text class=\"{class}\" x=\"{}\" y=\"{}\">{}</text>", n(x), n(y), escaped(text)));
    }

    /// A line with what is said of it when it is pointed at.
    pub fn stroke(&mut self, class: &str, d: &str, title: &str) {
        self.put(format_args!("<path class=\"{class}\" d=\"{d}\">{}</path>", titled(title)));
    }

    /// The empty memory and its ruler.
    pub fn memory(&mut self, plan: &Plan) {
        let height = plan.bottom - TOP;
        self.put(format_args!(
            "<rect class=\"memory\" x=\"{}\" y=\"{}\" width=\"{}\" height=\"{}\"/>",
            n(LEFT),
            n(TOP),
            n(RIGHT - LEFT),
            n(height)
        ));
        let mut grid = String::new();
        let mut ticks = String::new();
        for column in (0..=COLUMNS).step_by(32) {
            let (x, long) = (x_of(column), column % 64 == 0);
            let _ = write!(grid, "M{} {}v{}", n(x), n(TOP), n(height));
            let _ = write!(ticks, "M{} {}v{}", n(x), n(TOP), if long { -6 } else { -3 });
            if long {
                self.text("mono small quiet mid", x, TOP - 10.0, &column.to_string());
            }
        }
        let _ = write!(ticks, "M{} {}H{}", n(LEFT), n(TOP), n(RIGHT));
        self.stroke("grid", &grid, "");
        self.stroke("frame", &ticks, "");
        self.text("small quiet end", LEFT - 14.0, TOP - 10.0, "line");
        self.text("small quiet", RIGHT + 18.0, TOP - 10.0, "columns");
    }

    pub fn blocks(&mut self, plan: &Plan) {
        for p in plan.placed.iter().flatten() {
            let (a, b) = (p.allocation, &p.block);
            self.put(format_args!(
                "<rect class=\"block b{}{}\" x=\"{}\" y=\"{}\" width=\"{}\" height=\"{}\" rx=\"{}\">{}</rect>",
                p.tint,
                if plan.is_at_fault(a) { " leak" } else { "" },
                n(b.x),
                n(b.y),
                n(b.width),
                n(b.height),
                if b.height < 8.0 { 0 } else { 3 },
                titled(&told(a))
            ));
        }
    }

    /// A solid line for a load, a broken one for a store, a bar for an mma.
    pub fn marks(&mut self, plan: &Plan, sheet: &Sheet) {
        let many = plan.bundle() > 1;
        let thick = if many { 2.0 } else { (plan.row * 0.32).min(6.0) };
        self.put(format_args!("<g class=\"{}\">", if many { "many" } else { "few" }));
        for p in plan.placed.iter().flatten() {
            for mark in &p.marks {
                let (x, y, width) = plan.spot(mark, p);
                let title = titled(&said(mark, p.allocation, sheet));
                // what is narrow is higher, so that it can be seen
                let narrow = if !many && width < NARROW { " narrow" } else { "" };
                let (class, x, width) = (mark.kind.word(), n(x), n(width));
                match mark.kind {
                    Use::Mma => self.put(format_args!(
                        "<rect class=\"{class}\" x=\"{x}\" y=\"{}\" width=\"{width}\" height=\"{}\">{title}</rect>",
                        n(y - thick / 2.0),
                        n(thick)
                    )),
                    _ => self.put(format_args!("<path class=\"{class}{narrow}\" d=\"M{x} {}h{width}\">{title}</path>", n(y))),
                }
            }
        }
        self.put(format_args!("</g>"));
    }

    /// The name and the size of each block that has room for them.
    pub fn names(&mut self, plan: &Plan) {
        for p in plan.placed.iter().flatten() {
            let label = Label::new(p.allocation, &p.block);
            let clear = plan.clear(p, &label);
            let top = clear.unwrap_or(p.block.y);
            if clear.is_none() && label.way != Way::None {
                let (left, right) = label.sides(&p.block);
                let (x, y, width, height) = (n(left), n(top + 1.0), n(right - left), n(label.height - 1.0));
                self.put(format_args!("<rect class=\"b{} plate\" x=\"{x}\" y=\"{y}\" width=\"{width}\" height=\"{height}\"/>", p.tint));
            }
            self.label(&label, &p.block, top, if clear == Some(p.block.y) { (plan.row / 2.0 + 3.0).clamp(12.0, 14.0) } else { 12.0 });
        }
    }

    pub fn label(&mut self, label: &Label, b: &Block, top: f64, base: f64) {
        let (x, y) = (b.x + 5.0, top + base);
        let (name, size) = (escaped(&label.name), escaped(&label.size));
        let both = format!("<tspan class=\"strong\">{name}</tspan><tspan class=\"quiet\" dx=\"7\">{size}</tspan>");
        match label.way {
            Way::None => {}
            Way::One => self.put(format_args!("<text class=\"mono\" x=\"{}\" y=\"{}\">{both}</text>", n(x), n(y))),
            Way::Two => {
                self.text("mono strong", x, y, &label.name);
                self.text("mono quiet", x, y + 15.0, &label.size);
            }
            Way::Upright => {
                let (x, y) = (n(b.x + b.width / 2.0 + 4.0), n(top + 7.0));
                self.put(format_args!("<text class=\"mono end\" transform=\"translate({x} {y}) rotate(-90)\">{both}</text>"));
            }
        }
    }

    /// The line after which the most columns were held.
    pub fn peak(&mut self, plan: &Plan) {
        let Some((line, y)) = plan.peak else { return };
        let peak = plan.answer.peak;
        let title = format!("peak: {} held after line {}", counted(peak, "column"), grouped(line as u64));
        self.stroke("peak", &format!("M{} {}H{}", n(LEFT), n(y), n(RIGHT + 8.0)), &title);
        let y = y.max(TOP + 12.0);
        self.text("small strong", RIGHT + 12.0, y - 2.0, &format!("peak {peak}"));
        self.text("small quiet", RIGHT + 12.0, y + 11.0, &format!("line {}", grouped(line as u64)));
    }

    /// Numbers of lines, as many as there is room for; the refused one first.
    pub fn lines(&mut self, plan: &Plan) {
        let mut steps = (0..).flat_map(|power| [1, 2, 5].map(|k| k * 10_usize.saturating_pow(power)));
        let step = steps.find(|&step| step as f64 * plan.row >= if step == 1 { 15.0 } else { 24.0 }).unwrap_or(1);
        let ends = [plan.drawn, 1].into_iter().filter(|&line| line > 0);
        let others = (step..=plan.drawn).step_by(step);
        let mut taken: Vec<f64> = Vec::new();
        for line in ends.chain(others) {
            if line > plan.drawn || taken.iter().any(|y| (y - plan.middle(line)).abs() < 14.0) {
                continue;
            }
            let y = plan.middle(line);
            let class = if line == plan.drawn && plan.stop.is_some() { "refused strong" } else { "quiet" };
            self.text(&format!("mono small end {class}"), LEFT - 14.0, y + 4.0, &grouped(line as u64));
            self.stroke("frame", &format!("M{} {}h-5", n(LEFT - 4.0), n(y)), "");
            taken.push(y);
        }
    }

    /// The file and the library's answer.
    pub fn head(&mut self, name: &str, plan: &Plan) {
        self.text("file", LEFT, 34.0, &shortened(name, 64));
        let (class, word) = if plan.answer.reason.is_some() { ("refused", "refused") } else { ("passed", "passed") };
        self.put(format_args!(
            "<text x=\"{}\" y=\"57\"><tspan class=\"{class} strong\">{word}</tspan><tspan dx=\"8\">{}</tspan></text>",
            n(LEFT),
            verdict(&plan.answer)
        ));
    }

    pub fn legend(&mut self, plan: &Plan) {
        let y = 82.0;
        let mut x = LEFT;
        let signs = [
            ("<rect class=\"block b0\" x=\"1\" y=\"-6\" width=\"24\" height=\"12\" rx=\"3\"/>", "allocation", 104.0),
            ("<path class=\"ld\" d=\"M1 0h24\"/>", "ld", 56.0),
            ("<path class=\"st\" d=\"M1 0h24\"/>", "st", 56.0),
            ("<rect class=\"mma\" x=\"1\" y=\"-3\" width=\"24\" height=\"6\"/>", "mma", 70.0),
            ("<path class=\"peak\" d=\"M1 0h24\"/>", "peak", 72.0),
            ("<path class=\"stop\" d=\"M1 0h24\"/>", "refused line", 112.0),
            ("<rect class=\"asked\" x=\"1\" y=\"-5\" width=\"24\" height=\"10\"/>", "asked for", 0.0),
        ];
        let shown = 5 + usize::from(plan.stop.is_some()) + usize::from(plan.asked.is_some());
        for (sign, text, width) in signs.into_iter().take(shown) {
            self.put(format_args!("<g transform=\"translate({} {})\">{sign}</g>", n(x), n(y)));
            self.text("small quiet", x + 32.0, y + 4.0, text);
            x += width;
        }
        if plan.bundle() > 1 && plan.placed.iter().flatten().any(|p| !p.marks.is_empty()) {
            let text = format!("a mark stands for up to {} lines", plan.bundle());
            self.text("small quiet end", RIGHT, y + 4.0, &text);
        }
    }

    pub fn stop(&mut self, plan: &Plan, title: &str) {
        let (Some(y), Some(reason)) = (plan.stop, plan.answer.reason) else { return };
        let d = format!("M{} {}H{}", n(LEFT - 4.0), n(y), n(RIGHT + 4.0));
        self.stroke("stop", &d, &format!("{}, reason {}: {title}", at(&plan.answer), reason.number()));
    }

    /// What the refused line asks for: a bar on the red line, and below the rows what it is.
    pub fn asked(&mut self, plan: &Plan) {
        let (Some(asked), Some(y)) = (&plan.asked, plan.stop) else { return };
        let height = (plan.row * 0.6).clamp(8.0, 13.0);
        let end = asked.from.saturating_add(asked.columns);
        let width = (x_of(end) - x_of(asked.from)).max(BLOCK);
        let x = x_of(asked.from).min(RIGHT - width);
        self.put(format_args!(
            "<rect class=\"asked\" x=\"{}\" y=\"{}\" width=\"{}\" height=\"{}\">{}</rect>",
            n(x),
            n(y - height / 2.0),
            n(width),
            n(height),
            titled(&asked.label)
        ));
        if end > COLUMNS {
            self.put(format_args!("<path class=\"refused\" d=\"M{} {}l8 5l-8 5z\"/>", n(RIGHT + 2.0), n(y - 5.0)));
        }
        let most = RIGHT - asked.label.chars().count() as f64 * SMALL;
        self.text("small refused", x.min(most).max(LEFT), (y + height / 2.0).max(plan.bottom) + 13.0, &asked.label);
    }

    /// What is said below the rows; answers where the picture ends.
    pub fn foot(&mut self, plan: &Plan, title: &str) -> f64 {
        let mut y = plan.bottom + if plan.asked.is_some() { 22.0 } else { 6.0 };
        if let Some(reason) = plan.answer.reason {
            for line in wrapped(&format!("reason {}: {title}", reason.number()), ((RIGHT - LEFT) / SANS) as usize, 4) {
                y += 17.0;
                self.text("refused strong", LEFT, y, &line);
            }
        }
        if plan.placed.is_none() {
            y += 19.0;
            self.text("quiet", LEFT, y, "The places of the allocations are not known.");
        }
        if let Some(text) = rest(plan) {
            self.put(format_args!(
                "<rect class=\"rest\" x=\"{}\" y=\"{}\" width=\"{}\" height=\"24\" rx=\"3\"/>",
                n(LEFT),
                n(y + 12.0),
                n(RIGHT - LEFT)
            ));
            self.text("quiet mid", (LEFT + RIGHT) / 2.0, y + 28.0, &text);
            y += 36.0;
        }
        y + 22.0
    }

    /// The whole file.
    pub fn close(self, name: &str, plan: &Plan, title: &str, height: f64) -> String {
        let word = if plan.answer.reason.is_some() { "refused" } else { "passed" };
        format!(
            "<svg xmlns=\"http://www.w3.org/2000/svg\" viewBox=\"0 0 {WIDTH} {height}\" width=\"{WIDTH}\" height=\"{height}\" role=\"img\" \
             aria-labelledby=\"sheet-title sheet-about\">\n<title id=\"sheet-title\">{}: {word}, {}</title>\n\
             <desc id=\"sheet-about\">{}</desc>\n<style>{}</style>\n<rect class=\"bg\" width=\"{WIDTH}\" height=\"{height}\"/>\n{}</svg>\n",
            escaped(name),
            verdict(&plan.answer),
            escaped(&about(plan, title)),
            style(),
            self.body,
            height = n(height.ceil()),
        )
    }
}

/// How the name and the size stand in a block.
#[derive(Clone, Copy, PartialEq, Eq, Debug)]
pub enum Way {
    None,
    One,
    Two,
    Upright,
}

pub struct Label {
    pub way: Way,
    pub name: String,
    pub size: String,
    pub height: f64,
}

impl Label {
    pub fn new(a: &Allocation, b: &Block) -> Label {
        let (name, size) = (a.name.as_str(), a.columns.to_string());
        let letters = ((b.width - 8.0) / LETTER).max(0.0) as usize;
        let (long, both) = (name.chars().count(), name.chars().count() + 1 + size.len());
        let upright = both as f64 * LETTER + 14.0;
        let (way, height) = match () {
            () if b.height < 15.0 => (Way::None, 0.0),
            () if both <= letters => (Way::One, 15.0),
            () if long <= letters && b.height >= 31.0 => (Way::Two, 29.0),
            () if b.height >= upright => (Way::Upright, upright),
            () if b.height >= 31.0 => (Way::Two, 29.0),
            () => (Way::One, 15.0),
        };
        let mut label = Label { way, name: name.into(), size, height };
        if both > letters && way == Way::One {
            label.size.clear();
        }
        if long > letters && way != Way::Upright {
            label.name = name.chars().take(letters.saturating_sub(1)).chain([CUT]).collect();
        }
        label
    }

    /// From where to where it stands in its block, across.
    pub fn sides(&self, b: &Block) -> (f64, f64) {
        let (name, size) = (self.name.chars().count(), self.size.len());
        let letters = match self.way {
            Way::None => 0,
            Way::One => name + 1 + size,
            Way::Two => name.max(size),
            Way::Upright => return (b.x + b.width / 2.0 - 8.0, b.x + b.width / 2.0 + 8.0),
        };
        (b.x + 3.0, b.x + 5.0 + letters as f64 * LETTER)
    }
}
