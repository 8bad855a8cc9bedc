// The pool's churn in plain Rust: slots in a Vec, with a free list. Names have no serials, so a stale one isn't noticed.
const LIVE: u64 = 1000;

struct Slots {
    cells: Vec<Option<u64>>,
    free: Vec<usize>,
}

impl Slots {
    fn put(&mut self, value: u64) -> usize {
        match self.free.pop() {
            Some(slot) => {
                self.cells[slot] = Some(value);
                slot
            }
            None => {
                self.cells.push(Some(value));
                self.cells.len() - 1
            }
        }
    }

    fn take(&mut self, slot: usize) -> Option<u64> {
        let value = self.cells.get_mut(slot)?.take()?;
        self.free.push(slot);
        Some(value)
    }
}

fn main() {
    let rounds: u64 = std::env::args().nth(2).expect("rounds").parse().expect("a number");
    let mut slots = Slots { cells: Vec::new(), free: Vec::new() };
    let mut names: Vec<usize> = (0..LIVE).map(|value| slots.put(value)).collect();
    let mut sum = 0u64;
    for round in 0..rounds / LIVE {
        for name in names.iter_mut() {
            sum = sum.wrapping_add(slots.take(*name).unwrap_or(0));
            *name = slots.put(round);
        }
    }
    println!("{} {}", slots.cells.len(), sum);
}
