//! Rows of a function's name, its inputs and what is answered, with lines that say what they reach.

use oracle::core::math::Vector2;
use oracle::text::bits;

pub struct Row {
    pub function: &'static str,
    pub inputs: Vec<f64>,
    pub output: String,
}

pub enum Line {
    About(&'static str),
    Sample(Row),
}

#[derive(Default)]
pub struct Rows(pub Vec<Line>);

impl Rows {
    pub fn about(&mut self, text: &'static str) {
        self.0.push(Line::About(text));
    }

    pub fn add(&mut self, function: &'static str, inputs: &[f64], output: &str) {
        self.0.push(Line::Sample(Row {
            function,
            inputs: inputs.to_vec(),
            output: output.to_string(),
        }));
    }

    pub fn each(&mut self, function: &'static str, inputs: &[f64], of: fn(f64) -> f64) {
        for x in inputs {
            self.add(function, &[*x], &bits(of(*x)));
        }
    }

    pub fn print(&self) {
        for line in &self.0 {
            match line {
                Line::About(text) => println!("# {text}"),
                Line::Sample(row) => {
                    println!("{} {} -> {}", row.function, words(&row.inputs), row.output);
                }
            }
        }
    }

    pub fn samples(self) -> impl Iterator<Item = Row> {
        self.0.into_iter().filter_map(|line| match line {
            Line::About(_) => None,
            Line::Sample(row) => Some(row),
        })
    }
}

pub fn words(numbers: &[f64]) -> String {
    let words: Vec<String> = numbers.iter().map(|x| bits(*x)).collect();
    words.join(" ")
}

pub fn named(name: &str, numbers: &[f64]) -> String {
    let separator = if numbers.is_empty() { "" } else { " " };
    format!("{name}{separator}{}", words(numbers))
}

pub fn flat(points: &[Vector2]) -> Vec<f64> {
    points.iter().flat_map(|p| [p.x, p.y]).collect()
}

pub fn point(numbers: &[f64]) -> Vector2 {
    Vector2::new(numbers[0], numbers[1])
}
