//! What a plain Rust program does for `run`: reads a graph file from standard input with serde_json, checks keys and
//! cycles, and evaluates each task once in a loop.

use std::collections::HashMap;
use std::io::{self, Read};

#[derive(Clone, Copy)]
enum Step {
    Number(i64),
    Input(usize),
    Minus,
    Two(fn(i64, i64) -> i64),
}

struct Reading<'a> {
    text: &'a [u8],
    at: usize,
    steps: Vec<Step>,
}

impl Reading<'_> {
    fn next(&mut self) -> Option<u8> {
        while self.text.get(self.at) == Some(&b' ') {
            self.at += 1;
        }
        self.text.get(self.at).copied()
    }

    fn want(&mut self, byte: u8) {
        assert_eq!(self.next(), Some(byte));
        self.at += 1;
    }

    fn number(&mut self) -> i64 {
        let start = self.at;
        while self.text.get(self.at).is_some_and(u8::is_ascii_digit) {
            self.at += 1;
        }
        std::str::from_utf8(&self.text[start..self.at]).unwrap().parse().unwrap()
    }

    fn expression(&mut self) {
        self.term();
        while let Some(sign @ (b'+' | b'-')) = self.next() {
            self.at += 1;
            self.term();
            self.steps.push(Step::Two(if sign == b'+' { i64::wrapping_add } else { i64::wrapping_sub }));
        }
    }

    fn term(&mut self) {
        self.factor();
        while let Some(sign @ (b'*' | b'/' | b'%')) = self.next() {
            self.at += 1;
            self.factor();
            self.steps.push(Step::Two(match sign {
                b'*' => i64::wrapping_mul,
                b'/' => |a, b| if b == 0 { 0 } else { a.wrapping_div(b) },
                _ => |a, b| if b == 0 { 0 } else { a.wrapping_rem(b) },
            }));
        }
    }

    fn factor(&mut self) {
        match self.next().expect("a factor") {
            b'-' => {
                self.at += 1;
                self.factor();
                self.steps.push(Step::Minus);
            }
            b'(' => {
                self.at += 1;
                self.expression();
                self.want(b')');
            }
            b'$' => {
                self.at += 1;
                let input = self.number() as usize;
                self.steps.push(Step::Input(input));
            }
            b'0'..=b'9' => {
                let number = self.number();
                self.steps.push(Step::Number(number));
            }
            _ => self.call(),
        }
    }

    fn call(&mut self) {
        let name = &self.text[self.at..self.at + 3];
        let two: fn(i64, i64) -> i64 = if name == b"min" { i64::min } else { i64::max };
        assert!(name == b"min" || name == b"max");
        self.at += 3;
        self.want(b'(');
        self.expression();
        self.want(b',');
        self.expression();
        self.want(b')');
        self.steps.push(Step::Two(two));
    }
}

fn parse(text: &str) -> Vec<Step> {
    let mut reading = Reading { text: text.as_bytes(), at: 0, steps: vec![] };
    reading.expression();
    assert_eq!(reading.next(), None);
    reading.steps
}

fn eval(steps: &[Step], stack: &mut Vec<i64>, input: impl Fn(usize) -> i64) -> i64 {
    stack.clear();
    for step in steps {
        match *step {
            Step::Number(number) => stack.push(number),
            Step::Input(i) => stack.push(input(i)),
            Step::Minus => {
                let last = stack.last_mut().unwrap();
                *last = last.wrapping_neg();
            }
            Step::Two(two) => {
                let right = stack.pop().unwrap();
                let left = stack.last_mut().unwrap();
                *left = two(*left, right);
            }
        }
    }
    stack[0]
}

fn main() {
    let mut bytes = vec![];
    io::stdin().read_to_end(&mut bytes).unwrap();
    let value: serde_json::Value = serde_json::from_slice(&bytes).unwrap();
    assert_eq!(value["version"], 1);
    let tasks = value["tasks"].as_array().unwrap();
    let mut numbers = HashMap::with_capacity(tasks.len());
    for (number, task) in tasks.iter().enumerate() {
        assert!(numbers.insert(task["key"].as_u64().unwrap(), number).is_none());
    }
    let mut inputs: Vec<Vec<usize>> = Vec::with_capacity(tasks.len());
    let mut formulas = Vec::with_capacity(tasks.len());
    for task in tasks {
        let keys = task["inputs"].as_array().map(Vec::as_slice).unwrap_or_default();
        inputs.push(keys.iter().map(|key| numbers[&key.as_u64().unwrap()]).collect());
        formulas.push(parse(task["formula"].as_str().unwrap()));
    }
    let mut readers = vec![vec![]; tasks.len()];
    for (task, below) in inputs.iter().enumerate() {
        for input in below {
            readers[*input].push(task);
        }
    }
    let mut left: Vec<usize> = inputs.iter().map(Vec::len).collect();
    let mut order: Vec<usize> = (0..tasks.len()).filter(|task| left[*task] == 0).collect();
    let mut next = 0;
    while next < order.len() {
        for reader in &readers[order[next]] {
            left[*reader] -= 1;
            if left[*reader] == 0 {
                order.push(*reader);
            }
        }
        next += 1;
    }
    assert_eq!(order.len(), tasks.len(), "cycle");
    let mut values = vec![0; tasks.len()];
    let mut stack = vec![];
    for task in order {
        values[task] = eval(&formulas[task], &mut stack, |i| values[inputs[task][i]]);
    }
    println!("value {}", values[numbers[&value["sink"].as_u64().unwrap()]]);
}
