//! SVG text.

use std::fmt::Write;

pub struct Svg {
    body: String,
    width: f64,
    height: f64,
}

const STYLE: &str = "text{font-family:Helvetica,Arial,sans-serif;fill:#1c2733}\
.title{font-size:15px;font-weight:bold}.caption{font-size:13px}\
.id{text-anchor:middle;paint-order:stroke;stroke:#fff;stroke-linejoin:round}\
.small{fill:#5a6673}";

impl Svg {
    pub fn new(width: f64, height: f64) -> Self {
        Self { body: String::new(), width, height }
    }

    pub fn push(&mut self, element: &str) {
        self.body += element;
        self.body.push('\n');
    }

    /// Text whose place is its left end.
    pub fn text(&mut self, x: f64, y: f64, class: &str, text: &str) {
        self.push(&format!("<text x='{x:.1}' y='{y:.1}' class='{class}'>{text}</text>"));
    }

    pub fn finish(self) -> String {
        let (w, h) = (self.width.ceil(), self.height.ceil());
        format!(
            "<svg xmlns='http://www.w3.org/2000/svg' width='{w}' height='{h}' viewBox='0 0 {w} {h}'>\n\
             <style>{STYLE}</style>\n<rect width='{w}' height='{h}' fill='#fff'/>\n{}</svg>\n",
            self.body
        )
    }
}

pub fn escaped(text: &str) -> String {
    text.replace('&', "&amp;").replace('<', "&lt;").replace('>', "&gt;")
}

/// Places as the points of a polygon or a polyline.
pub fn points(places: &[(f64, f64)]) -> String {
    let mut text = String::new();
    for (x, y) in places {
        write!(text, "{x:.1},{y:.1} ").expect("a string takes all");
    }
    text
}
