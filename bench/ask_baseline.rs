// The questions of ac_bench in plain Rust, over rows of the same shape: a sum, what is kept of the rows, and the rows that are the greatest.
#[allow(dead_code)]
enum Value {
    Int(i64),
    Text(Vec<u8>),
}

#[allow(dead_code)]
struct Row {
    depth: u64,
    key: Option<Value>,
    value: Value,
}

fn integer(row: &Row) -> i64 {
    match row.value {
        Value::Int(number) => number,
        Value::Text(_) => 0,
    }
}

fn sum(rows: &[Row]) -> Option<i64> {
    let mut sum = 0i64;
    for row in rows {
        sum = sum.checked_add(integer(row))?;
    }
    Some(sum)
}

fn kept(rows: &[Row]) -> Option<Vec<i64>> {
    let mut made = Vec::new();
    for row in rows {
        let number = integer(row);
        if number > 5 {
            made.push(number.checked_mul(2)?);
        }
    }
    Some(made)
}

fn greatest(rows: &[Row]) -> Option<Vec<i64>> {
    let most = rows.iter().map(integer).fold(0, i64::max);
    Some(rows.iter().map(integer).filter(|number| *number == most).collect())
}

fn main() {
    let words: Vec<String> = std::env::args().collect();
    let rows: u64 = words[2].parse().expect("rows");
    let rounds: u64 = words[3].parse().expect("rounds");
    let rows: Vec<Row> = (0..rows)
        .map(|place| Row { depth: 0, key: None, value: Value::Int((place.wrapping_mul(7919) % 1_000_003) as i64) })
        .collect();
    let mut count = 0;
    for _ in 0..rounds {
        let rows = std::hint::black_box(&rows);
        count = match words[1].as_str() {
            "ask_sum" => usize::from(sum(rows).is_some()),
            "ask_kept" => kept(rows).map_or(0, |made| made.len()),
            "ask_greatest" => greatest(rows).map_or(0, |made| made.len()),
            _ => panic!("no such question"),
        };
    }
    println!("{count}");
}
