//! The 0/1 knapsack problem.
//!
//! The children of a set of items add one item that stands after the last added one, by falling profit per weight, and
//! that still fits. Worth is the profit and 1; the bound is Dantzig's (1957) and 1.
//!
//! Dantzig's bound takes the items after the last added one while they fit. So the first item that does not fit any more
//! stands, for the children of one node and for the first child of each child, at the same place or at a later one, and a
//! pointer to it moves forward only. Profit and weight up to it are differences of sums from the front. The quotient is
//! not divided out: it is compared with what is missing by products.

use crate::reading::Numbers;
use crate::report::{Totals, line};

const MOST_ITEMS: usize = 256;
const MOST_AMOUNT: u64 = (1 << 31) - 1;
const MOST_CAPACITY: u64 = (1 << 40) - 1;

/// Held once a decision is reached: more than each bound.
const REACHED: u64 = 1 << 62;

/// An item at its place of the searched order.
#[derive(Clone, Copy, Default)]
struct Place {
    profit: u64,
    weight: u64,
    /// The profit of all items before this one.
    profit_before: u64,
    /// The weight of all items before this one.
    weight_before: u64,
    /// The weight of all items up to this one.
    weight_after: u64,
    /// The least weight of this item and those after it.
    least_weight: u64,
    /// The item's number in the file, from 1.
    item: usize,
}

/// The best set of items, and the report.
pub fn best(text: &str) -> Result<String, String> {
    // The root's worth, 1, is held when its children are judged.
    let mut search = Search::of(text, 1, false)?;
    search.run();
    let answer = format!("best {}\n{}", search.held - 1, search.items());
    Ok(search.totals.report(&answer))
}

/// Whether a set of items has at least the target for its profit, with such a set, and the report.
pub fn reach(text: &str, target: u64) -> Result<String, String> {
    if target >= MOST_CAPACITY {
        return Err(format!("{target} is past {}", MOST_CAPACITY - 1));
    }
    let held = if target == 0 { REACHED } else { target };
    let mut search = Search::of(text, held, true)?;
    search.run();
    let answer = match search.held {
        REACHED => format!("yes\n{}", search.items()),
        _ => String::from("no\n"),
    };
    Ok(search.totals.report(&answer))
}

struct Search {
    /// The items in the searched order, and after them one that never fits and has no profit.
    places: [Place; MOST_ITEMS + 1],
    count: usize,
    capacity: u64,
    /// A child is visited where its bound is above this: the greatest worth so far; for a decision the target, and
    /// `REACHED` afterwards.
    held: u64,
    deciding: bool,
    totals: Totals,
    path: [u16; MOST_ITEMS],
    best: [u16; MOST_ITEMS],
    best_length: usize,
}

impl Search {
    /// The search of a file.
    fn of(text: &str, held: u64, deciding: bool) -> Result<Search, String> {
        let mut numbers = Numbers::of(text)?;
        let count = numbers.next(MOST_ITEMS as u64)? as usize;
        let capacity = numbers.next(MOST_CAPACITY)?;
        let mut items = Vec::with_capacity(count);
        for item in 1..=count {
            let profit = numbers.next(MOST_AMOUNT)?;
            let weight = numbers.next(MOST_AMOUNT)?;
            items.push((profit, weight, item));
        }
        numbers.end()?;
        // Items of weight 0 first, in the order of the file.
        items.sort_by(|a, b| match (a.1, b.1) {
            (0, 0) => a.2.cmp(&b.2),
            (0, _) => std::cmp::Ordering::Less,
            (_, 0) => std::cmp::Ordering::Greater,
            _ => (b.0 * a.1).cmp(&(a.0 * b.1)).then(a.2.cmp(&b.2)),
        });
        Ok(Search {
            places: placed(&items),
            count,
            capacity,
            held,
            deciding,
            totals: Totals::default(),
            path: [0; MOST_ITEMS],
            best: [0; MOST_ITEMS],
            best_length: 0,
        })
    }

    fn run(&mut self) {
        self.totals.visited = 1;
        self.children(0, 0, 0, self.capacity, 0);
    }

    /// Judges the children of the set of the first `depth` places of the path, and searches below those that are
    /// visited. `next` is the place after the last added item, and all items from there up to `breaking` fit together.
    fn children(&mut self, depth: usize, next: usize, profit: u64, room: u64, breaking: usize) {
        let mut breaking = breaking;
        for place in next..self.count {
            let here = &self.places[place];
            if here.weight > room {
                continue;
            }
            let reach = here.weight_before + room;
            while self.places[breaking].weight_after <= reach {
                breaking += 1;
            }
            let out = &self.places[breaking];
            let whole = profit + out.profit_before - here.profit_before + 1;
            // Visited where profit * room / weight, rounded down, is more than what is missing. It is less than the profit.
            let above = self.held < whole || {
                let missing = (self.held - whole).min(out.profit);
                out.profit * (reach - out.weight_before) >= (missing + 1) * out.weight
            };
            if !above {
                self.totals.cut += 1;
                continue;
            }
            self.totals.visited += 1;
            self.path[depth] = place as u16;
            let (profit, weight) = (profit + here.profit, here.weight);
            if profit + 1 > self.held {
                self.improve(depth + 1, profit + 1);
            }
            let room = room - weight;
            if room >= self.places[place + 1].least_weight {
                self.children(depth + 1, place + 1, profit, room, breaking);
            }
        }
    }

    #[cold]
    fn improve(&mut self, length: usize, worth: u64) {
        self.held = if self.deciding { REACHED } else { worth };
        self.best = self.path;
        self.best_length = length;
    }

    /// The line of the items of the best set.
    fn items(&self) -> String {
        let mut items: Vec<usize> = self.best[..self.best_length]
            .iter()
            .map(|place| self.places[*place as usize].item)
            .collect();
        items.sort_unstable();
        line("items", items)
    }
}

/// Items in the searched order with the sums before them.
fn placed(items: &[(u64, u64, usize)]) -> [Place; MOST_ITEMS + 1] {
    let mut places = [Place::default(); MOST_ITEMS + 1];
    let (mut profit_before, mut weight_before) = (0, 0);
    for (place, &(profit, weight, item)) in places.iter_mut().zip(items) {
        *place = Place {
            profit,
            weight,
            profit_before,
            weight_before,
            weight_after: weight_before + weight,
            least_weight: 0,
            item,
        };
        profit_before += profit;
        weight_before += weight;
    }
    places[items.len()] = Place {
        profit: 0,
        weight: 1,
        profit_before,
        weight_before,
        weight_after: u64::MAX,
        least_weight: u64::MAX,
        item: 0,
    };
    for place in (0..items.len()).rev() {
        places[place].least_weight = places[place].weight.min(places[place + 1].least_weight);
    }
    places
}
