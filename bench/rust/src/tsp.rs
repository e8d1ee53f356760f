//! The travelling salesman problem of files in the explicit form of TSPLIB 95.
//!
//! The children of a list of cities append each city that is not in it, by rising number. The bound is the length so far
//! and, for each city from which no step was taken, the least weight from it to another city. A list is judged by its
//! length here; the worth of the skeletons is 2^37 minus it.
//!
//! The least weight from a city is taken off all weights from it, and added to the length at the start. So the bound of a
//! child is that of its parent and one reduced weight, and the children to visit are those whose reduced weight is within
//! what may still be added. How many of all cities are is counted without a branch, and the set of that many nearest
//! cities is in a table.

use crate::reading;
use crate::report::{Totals, line};

const MOST_CITIES: usize = 60;
const MOST_WEIGHT: u64 = (1 << 31) - 1;

/// With this many children or fewer they are judged one by one.
const FEW: usize = 3;

/// Above the length of each tour.
const NO_TOUR: u64 = 1 << 37;

/// The shortest tour, and the report.
pub fn best(text: &str) -> Result<String, String> {
    let tours = read(text)?;
    Ok(match tours.len() {
        0..=16 => search::<16>(&tours),
        17..=32 => search::<32>(&tours),
        _ => search::<64>(&tours),
    })
}

/// The text of the search with places for this many cities.
fn search<const PLACES: usize>(tours: &[Vec<u64>]) -> String {
    let mut search = Search::<PLACES>::of(tours);
    let others = (1 << tours.len()) - 2;
    search.children(1, 0, others, search.least);
    let cities = search.best[..tours.len()].iter();
    let tour = line("tour", cities.map(|city| *city as usize + 1));
    let totals = Totals {
        visited: search.visited + 1,
        cut: search.made - search.visited,
    };
    totals.report(&format!("best {}\n{tour}", search.shortest))
}

/// The steps from one city.
#[derive(Clone, Copy)]
struct Steps<const PLACES: usize> {
    /// The reduced weights of the steps to the others, rising. Places that are left have the greatest weight.
    rising: [i32; PLACES],
    /// The sets of the nearest cities: of none, of one, and so on. Places that are left have all cities.
    nearest: [u64; PLACES],
    /// The reduced weight of the step to each city.
    to: [i32; PLACES],
}

impl<const PLACES: usize> Steps<PLACES> {
    /// The steps from a city, from the weights of them all and the least of those to others.
    fn of(from: usize, row: &[u64], least: u64) -> Steps<PLACES> {
        let mut to = [0; PLACES];
        for (city, weight) in row.iter().enumerate().filter(|(city, _)| *city != from) {
            to[city] = (weight - least) as i32;
        }
        let mut others: Vec<usize> = (0..row.len()).filter(|city| *city != from).collect();
        others.sort_by_key(|city| to[*city]);
        let mut steps = Steps {
            rising: [i32::MAX; PLACES],
            nearest: [u64::MAX; PLACES],
            to,
        };
        let mut nearest = 0;
        for (place, city) in others.iter().enumerate() {
            steps.rising[place] = to[*city];
            steps.nearest[place] = nearest;
            nearest |= 1 << city;
        }
        steps
    }

    /// The other cities to which a step has at most this reduced weight. The set may have the city itself besides.
    #[inline(always)]
    fn within(&self, most: i32) -> u64 {
        let beyond: i32 = self.rising.iter().map(|step| i32::from(*step > most)).sum();
        // The others leave at least one place, so from their number on the set is that of all.
        let place = PLACES - beyond as usize;
        if place < PLACES {
            self.nearest[place]
        } else {
            u64::MAX
        }
    }
}

struct Search<const PLACES: usize> {
    cities: usize,
    steps: [Steps<PLACES>; PLACES],
    /// The sum of the least weights.
    least: u64,
    /// The length of the shortest tour so far.
    shortest: u64,
    /// How many children were visited.
    visited: u64,
    /// How many children there were.
    made: u64,
    path: [u8; PLACES],
    best: [u8; PLACES],
}

impl<const PLACES: usize> Search<PLACES> {
    fn of(tours: &[Vec<u64>]) -> Search<PLACES> {
        let mut sum = 0;
        let mut steps = [Steps::of(0, &[], 0); PLACES];
        for (from, row) in tours.iter().enumerate() {
            let others = row.iter().enumerate().filter(|(to, _)| *to != from);
            let least = others.map(|(_, weight)| *weight).min().unwrap_or(0);
            steps[from] = Steps::of(from, row, least);
            sum += least;
        }
        Search {
            cities: tours.len(),
            steps,
            least: sum,
            shortest: NO_TOUR,
            visited: 0,
            made: 0,
            path: [0; PLACES],
            best: [0; PLACES],
        }
    }

    /// The most that may be added to a bound for less than the shortest tour, or -1 where nothing may.
    #[inline(always)]
    fn most(&self, bound: u64) -> i32 {
        (self.shortest as i64 - 1 - bound as i64).clamp(-1, i64::from(i32::MAX)) as i32
    }

    /// Judges the children of the list of the first `depth` cities of the path, of which `last` is the last and `left`
    /// are not in it, and searches below those that are visited. `bound` is the length that each tour below has at least.
    fn children(&mut self, depth: usize, last: usize, left: u64, bound: u64) {
        let number = self.cities - depth;
        self.made += number as u64;
        if number <= FEW {
            self.few(depth, last, left, bound);
        } else {
            self.many(depth, last, left, bound);
        }
    }

    /// The children one by one, where they are few.
    #[inline(always)]
    fn few(&mut self, depth: usize, last: usize, left: u64, bound: u64) {
        let mut untried = left;
        while untried != 0 {
            let city = untried.trailing_zeros() as usize;
            untried &= untried - 1;
            let longer = bound + self.steps[last % PLACES].to[city % PLACES] as u64;
            if longer < self.shortest {
                self.visit(depth, city, left & !(1 << city), longer);
            }
        }
    }

    /// The near ones of many children.
    fn many(&mut self, depth: usize, last: usize, left: u64, bound: u64) {
        let mut near = left & self.steps[last % PLACES].within(self.most(bound));
        while near != 0 {
            let city = near.trailing_zeros() as usize;
            near &= near - 1;
            let longer = bound + self.steps[last % PLACES].to[city % PLACES] as u64;
            let shortest = self.shortest;
            self.visit(depth, city, left & !(1 << city), longer);
            if self.shortest < shortest {
                near &= self.steps[last % PLACES].within(self.most(bound));
            }
        }
    }

    /// Visits the child of a list with one more city, and searches below it.
    #[inline(always)]
    fn visit(&mut self, depth: usize, city: usize, left: u64, bound: u64) {
        self.visited += 1;
        self.path[depth % PLACES] = city as u8;
        if left == 0 {
            self.close(bound + self.steps[city % PLACES].to[0] as u64);
        } else {
            self.children(depth + 1, city, left, bound);
        }
    }

    /// Keeps the tour of the path where it is shorter than the shortest so far.
    fn close(&mut self, length: u64) {
        if length < self.shortest {
            self.shortest = length;
            self.best = self.path;
        }
    }
}

/// What the lines before the matrix say.
#[derive(Default)]
struct Head<'a> {
    cities: Option<usize>,
    format: Option<&'a str>,
}

/// The matrix of a file: the weights of the steps from each city to each.
fn read(text: &str) -> Result<Vec<Vec<u64>>, String> {
    let mut head = Head::default();
    let mut rest = text;
    loop {
        let (now, after) = rest.split_once('\n').ok_or("the file ends early")?;
        rest = after;
        if read_field(&mut head, now)? {
            break;
        }
    }
    let cities = head.cities.ok_or("no DIMENSION")?;
    let format = head.format.ok_or("no EDGE_WEIGHT_FORMAT")?;
    matrix(cities, format, &reading::numbers(before_end(rest))?)
}

/// Keeps what a line before the matrix says. Answers whether the matrix begins after it.
fn read_field<'a>(head: &mut Head<'a>, line: &'a str) -> Result<bool, String> {
    let end = line.find(':').unwrap_or(line.len());
    let key = line[..end].trim();
    let value = line.get(end + 1..).unwrap_or("").trim();
    match key {
        "EDGE_WEIGHT_SECTION" => return Ok(true),
        "DIMENSION" => {
            let cities = value.parse().map_err(|_| format!("DIMENSION {value}"))?;
            if !(2..=MOST_CITIES).contains(&cities) {
                return Err(format!("{cities} cities"));
            }
            head.cities = Some(cities);
        }
        "EDGE_WEIGHT_FORMAT" => head.format = Some(value),
        "EDGE_WEIGHT_TYPE" if value != "EXPLICIT" => return Err(format!("weights {value}")),
        _ => {}
    }
    Ok(false)
}

/// The text before the word that ends the matrix.
fn before_end(text: &str) -> &str {
    let ends = ["EOF", "DISPLAY_DATA_SECTION"];
    let end = ends.iter().filter_map(|word| text.find(word)).min();
    &text[..end.unwrap_or(text.len())]
}

/// The matrix of a format, whose numbers stand row by row.
fn matrix(cities: usize, format: &str, numbers: &[u64]) -> Result<Vec<Vec<u64>>, String> {
    let columns = |row: usize| match format {
        "FULL_MATRIX" => Ok(0..cities),
        "UPPER_ROW" => Ok(row + 1..cities),
        "LOWER_ROW" => Ok(0..row),
        "UPPER_DIAG_ROW" => Ok(row..cities),
        "LOWER_DIAG_ROW" => Ok(0..row + 1),
        _ => Err(format!("format {format}")),
    };
    let mut weights = vec![vec![0; cities]; cities];
    let mut left = numbers.iter();
    for row in 0..cities {
        for column in columns(row)? {
            let weight = *left.next().ok_or("the file ends early")?;
            if weight > MOST_WEIGHT {
                return Err(format!("{weight} is past {MOST_WEIGHT}"));
            }
            weights[row][column] = weight;
            if format != "FULL_MATRIX" {
                weights[column][row] = weight;
            }
        }
    }
    match left.next() {
        None => Ok(weights),
        Some(number) => Err(format!("{number} is surplus")),
    }
}
