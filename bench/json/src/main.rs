//! Reads and writes the JSON of the benchmark's texts by `serde_json`, without a type, as often as is said, and prints how long that took.
use serde_json::Value;
use std::io::Read;
use std::time::Instant;

fn repeated(loops: usize, mut work: impl FnMut()) -> u128 {
    let start = Instant::now();
    for _ in 0..loops {
        work();
    }
    start.elapsed().as_nanos()
}

fn spent(call: &str, loops: usize, text: &str) -> u128 {
    let value: Value = serde_json::from_str(text).unwrap();
    match call {
        "read" => repeated(loops, || drop(serde_json::from_str::<Value>(text).unwrap())),
        "write" => repeated(loops, || drop(serde_json::to_string(&value).unwrap())),
        _ => panic!("no call of the benchmark: {call}"),
    }
}

/// The arguments are a call (`read` or `write`) and how often it is made on each case of the input: a `#`, a name, the word `json`, the
/// end of the line, and the text.
fn main() {
    let mut words = std::env::args().skip(1);
    let call = words.next().expect("a call");
    let loops = words.next().and_then(|word| word.parse().ok()).unwrap_or(1);
    let mut input = String::new();
    std::io::stdin().read_to_string(&mut input).unwrap();
    for case in input.split('#').skip(1) {
        let (head, text) = case.split_once('\n').unwrap();
        let name = head.split(' ').next().unwrap();
        let spent = spent(&call, loops, text);
        println!("{name} in {} loops {loops} {call} {spent}", text.len());
    }
}
