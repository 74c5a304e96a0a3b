//! What is read of a picture.

/// The values of an attribute.
pub fn attribute<'a>(element: &'a str, name: &str) -> Option<&'a str> {
    element.split_once(&format!(" {name}=\"")).and_then(|(_, rest)| rest.split_once('"')).map(|(value, _)| value)
}

/// The cells that are written in: the byte, its class, and the fill that is drawn just before it, on a white ground.
pub fn cells(svg: &str) -> Vec<(&str, &str, &str)> {
    let mut ground = "#ffffff";
    let mut cells = Vec::new();
    for line in svg.lines() {
        match attribute(line, "class").filter(|class| class.starts_with("byte")) {
            Some(class) => {
                let written = line.split_once('>').and_then(|(_, rest)| rest.split_once('<')).unwrap().0;
                cells.push((written, class, ground));
                ground = "#ffffff";
            }
            None => ground = attribute(line, "fill").filter(|_| line.starts_with("<path d=\"M")).unwrap_or("#ffffff"),
        }
    }
    cells
}

fn parts(colour: &str) -> [f64; 3] {
    assert!(colour.len() == 7 && colour.starts_with('#'), "{colour}");
    [1, 3, 5].map(|at| f64::from(u8::from_str_radix(&colour[at..at + 2], 16).unwrap()) / 255.0)
}

/// Linear light, by WCAG 2.
pub fn linear(colour: &str) -> [f64; 3] {
    parts(colour).map(|part| if part <= 0.04045 { part / 12.92 } else { ((part + 0.055) / 1.055).powf(2.4) })
}

pub fn contrast(a: &str, b: &str) -> f64 {
    let luminance = |colour: &str| {
        let [red, green, blue] = linear(colour);
        0.2126 * red + 0.7152 * green + 0.0722 * blue + 0.05
    };
    let (a, b) = (luminance(a), luminance(b));
    a.max(b) / a.min(b)
}

/// What a class is written in: the fill of its last name that has one, or that of all texts.
pub fn ink<'a>(svg: &'a str, class: &str) -> &'a str {
    let fill = |rule: String| {
        let style = svg.lines().find_map(|line| line.strip_prefix(&rule))?;
        style.split_once("fill: ").and_then(|(_, rest)| rest.split_once(';')).map(|(value, _)| value)
    };
    let named = class.split(' ').rev().find_map(|name| fill(format!(".{name} {{")));
    named.or_else(|| fill("text {".to_string())).unwrap()
}
