//! The permutation flow shop: the least makespan of all orders of the jobs.
//!
//! The children of a list of jobs append each job that is not in it, by rising number. The bound is the greatest, over the
//! machines, of when the list is done there, what the absent jobs take there, and the least that one of them takes on the
//! machines after it (Ignall and Schrage 1965). A list is judged by this number here; the worth of the skeletons is 2^37
//! minus it.
//!
//! The least and the second least time on the later machines are found once for all children of a list: a child lacks one
//! job, and where that has the least time, the second least is what is left.

use crate::reading::Numbers;
use crate::report::{Totals, line};

const MOST_JOBS: u64 = 64;
const MOST_MACHINES: u64 = 32;
const MOST_TIME: u64 = (1 << 20) - 1;

/// The order of the least makespan, and the report.
pub fn best(text: &str) -> Result<String, String> {
    let times = read(text)?;
    Ok(match times[0].len() {
        0..=5 => search::<5>(&times),
        6..=10 => search::<10>(&times),
        11..=20 => search::<20>(&times),
        _ => search::<32>(&times),
    })
}

/// The text of the search with places for this many machines.
fn search<const MACHINES: usize>(times: &[Vec<u32>]) -> String {
    let mut search = Search::<MACHINES>::of(times);
    let mut rest = [0; MACHINES];
    for job in &search.jobs {
        for (sum, time) in rest.iter_mut().zip(job.times) {
            *sum += time;
        }
    }
    let all = u64::MAX >> (64 - times.len());
    search.children(0, all, &[0; MACHINES], &rest);
    let jobs = search.best[..times.len()].iter();
    let order = line("order", jobs.map(|job| *job as usize + 1));
    let totals = Totals {
        visited: search.visited + 1,
        cut: search.made - search.visited,
    };
    totals.report(&format!("best {}\n{order}", search.least))
}

/// The times of a job on each machine, and on the machines after each. Machines that are left take no time.
#[derive(Clone, Copy)]
struct Job<const MACHINES: usize> {
    times: [u32; MACHINES],
    later: [u32; MACHINES],
}

struct Search<const MACHINES: usize> {
    jobs: Vec<Job<MACHINES>>,
    /// The least makespan so far.
    least: u32,
    /// How many children were visited.
    visited: u64,
    /// How many children there were.
    made: u64,
    path: [u8; 64],
    best: [u8; 64],
}

impl<const MACHINES: usize> Search<MACHINES> {
    fn of(times: &[Vec<u32>]) -> Search<MACHINES> {
        let job = |row: &Vec<u32>| {
            let mut job = Job {
                times: [0; MACHINES],
                later: [0; MACHINES],
            };
            job.times[..row.len()].copy_from_slice(row);
            for machine in 1..MACHINES {
                job.later[MACHINES - 1 - machine] = job.later[MACHINES - machine] + job.times[MACHINES - machine];
            }
            job
        };
        Search {
            jobs: times.iter().map(job).collect(),
            least: u32::MAX,
            visited: 0,
            made: 0,
            path: [0; 64],
            best: [0; 64],
        }
    }

    /// Judges the children of the list of the first `depth` jobs of the path, which lacks the jobs of a set, and searches
    /// below those that are visited. The list is done on the machines at `ends`, and the absent jobs take `rest` there.
    fn children(&mut self, depth: usize, absent: u64, ends: &[u32; MACHINES], rest: &[u32; MACHINES]) {
        self.made += u64::from(absent.count_ones());
        let (least, second) = self.least_later(absent);
        let mut untried = absent;
        while untried != 0 {
            let number = untried.trailing_zeros() as usize;
            untried &= untried - 1;
            let job = self.jobs[number];
            let (mut now, mut left) = ([0; MACHINES], [0; MACHINES]);
            let (mut done, mut lower) = (0, 0);
            for machine in 0..MACHINES {
                done = ends[machine].max(done) + job.times[machine];
                now[machine] = done;
                left[machine] = rest[machine] - job.times[machine];
                let own = job.later[machine] == least[machine];
                lower = lower.max(done + left[machine] + if own { second[machine] } else { least[machine] });
            }
            if lower < self.least {
                self.visited += 1;
                self.path[depth % 64] = number as u8;
                let others = absent & !(1 << number);
                if others == 0 {
                    self.least = lower;
                    self.best = self.path;
                } else {
                    self.children(depth + 1, others, &now, &left);
                }
            }
        }
    }

    /// The least and the second least time of these jobs on the machines after each; where there is one job alone, the
    /// second least is 0.
    fn least_later(&self, jobs: u64) -> ([u32; MACHINES], [u32; MACHINES]) {
        let (mut least, mut second) = ([u32::MAX; MACHINES], [u32::MAX; MACHINES]);
        let mut left = jobs;
        while left != 0 {
            let later = &self.jobs[left.trailing_zeros() as usize].later;
            left &= left - 1;
            for machine in 0..MACHINES {
                second[machine] = second[machine].min(least[machine].max(later[machine]));
                least[machine] = least[machine].min(later[machine]);
            }
        }
        if jobs & (jobs - 1) == 0 {
            second = [0; MACHINES];
        }
        (least, second)
    }
}

/// The times of a file: for each job those on the machines in order.
fn read(text: &str) -> Result<Vec<Vec<u32>>, String> {
    let mut numbers = Numbers::of(text)?;
    let jobs = numbers.next(MOST_JOBS)?;
    let machines = numbers.next(MOST_MACHINES)?;
    if jobs == 0 || machines == 0 {
        return Err(format!("{jobs} jobs on {machines} machines"));
    }
    let mut times = Vec::new();
    for _ in 0..jobs {
        let row: Result<Vec<u32>, String> = (0..machines).map(|_| Ok(numbers.next(MOST_TIME)? as u32)).collect();
        times.push(row?);
    }
    numbers.end()?;
    Ok(times)
}
