// The same job in plain Rust with std alone, as a measure: reads a script of one list and writes its lines. It knows no faults.
use std::io::{Read, Write};

fn main() {
    let mut text = String::new();
    std::io::stdin().read_to_string(&mut text).expect("text");
    let mut list: Vec<i64> = Vec::new();
    let out = std::io::stdout();
    for (number, line) in text.lines().enumerate().skip(2) {
        let number = number + 1;
        let answer = match line.strip_prefix("A.Append (").and_then(|rest| rest.strip_suffix(");")) {
            Some(digits) => {
                list.push(digits.parse().expect("an integer"));
                format!("{number}: ok\n")
            }
            None => {
                let items: Vec<String> = list.iter().map(i64::to_string).collect();
                format!("{number}: [{}]\n", items.join(", "))
            }
        };
        out.lock().write_all(answer.as_bytes()).expect("written");
    }
}
