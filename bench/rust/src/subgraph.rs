//! Subgraph isomorphism: a map of the pattern's vertices to different vertices of the target that keeps every arc.
//!
//! Pattern vertices are mapped by falling degree. A candidate for one is a target vertex that is unused, has a loop where
//! it has one, has at least as many other successors and at least as many other predecessors, and keeps every arc to and
//! from mapped vertices. The children of a map take each candidate for the next vertex, by rising number. A child is cut
//! where a vertex that is still to be mapped has no candidate, and all are cut once a whole map is known.
//!
//! The candidates of each vertex to be mapped are a set of bits at each depth. The children of a node are judged
//! together: a candidate survives where each neighbour of its vertex keeps a candidate, so it is in the union of the rows
//! of the neighbour's candidates, which mostly is full after a few of them; and where it is no other vertex's only
//! candidate. A candidate that is left alone is tested by its own row. Sets are made for the survivors alone.

use crate::reading::Numbers;
use crate::report::{Totals, line};

const MOST_PATTERN: usize = 64;
const MOST_TARGET: usize = 1024;

/// The bits of a word.
const BITS: usize = 64;

/// Whether there is a map, with one, and the report.
pub fn reach(pattern: &str, target: &str) -> Result<String, String> {
    let pattern = Graph::read(pattern, MOST_PATTERN)?;
    let target = Graph::read(target, MOST_TARGET)?;
    // A set of target vertices has no more words than these need, up to a power of 2.
    Ok(match target.vertices.div_ceil(BITS) {
        0 | 1 => search::<1>(&pattern, &target),
        2 => search::<2>(&pattern, &target),
        3 | 4 => search::<4>(&pattern, &target),
        5..=8 => search::<8>(&pattern, &target),
        _ => search::<16>(&pattern, &target),
    })
}

/// The text of the search with sets of this many words.
fn search<const WORDS: usize>(pattern: &Graph, target: &Graph) -> String {
    let mut search = Search::<WORDS>::of(pattern, target);
    let found = search.order.is_empty() || search.children(0);
    // Each child was made, and cut where it was not visited.
    let totals = Totals {
        visited: search.visited + 1,
        cut: search.made - search.visited,
    };
    if !found {
        return totals.report("no\n");
    }
    let mut images = vec![0; search.order.len()];
    for (vertex, image) in search.order.iter().zip(&search.images) {
        images[*vertex] = *image;
    }
    totals.report(&format!("yes\n{}", line("map", images)))
}

/// A graph. Vertices are numbered from 0.
struct Graph {
    vertices: usize,
    /// Whether there is an arc from a vertex to another, or a loop.
    arcs: Vec<Vec<bool>>,
    /// How many other successors each vertex has.
    successors: Vec<usize>,
    /// How many other predecessors each vertex has.
    predecessors: Vec<usize>,
}

impl Graph {
    fn read(text: &str, limit: usize) -> Result<Graph, String> {
        let mut numbers = Numbers::of(text)?;
        let vertices = numbers.next(limit as u64)? as usize;
        let mut arcs = vec![vec![false; vertices]; vertices];
        for row in &mut arcs {
            for _ in 0..numbers.next(u64::MAX)? {
                row[numbers.next(vertices as u64 - 1)? as usize] = true;
            }
        }
        numbers.end()?;
        Ok(Graph::of(arcs))
    }

    fn of(arcs: Vec<Vec<bool>>) -> Graph {
        let vertices = arcs.len();
        let mut successors = vec![0; vertices];
        let mut predecessors = vec![0; vertices];
        for (from, row) in arcs.iter().enumerate() {
            for (to, there) in row.iter().enumerate() {
                let other = usize::from(*there && to != from);
                successors[from] += other;
                predecessors[to] += other;
            }
        }
        Graph {
            vertices,
            arcs,
            successors,
            predecessors,
        }
    }

    /// The vertices by falling degree, ties by number.
    fn order(&self) -> Vec<usize> {
        let degree = |vertex: &usize| self.successors[*vertex] + self.predecessors[*vertex];
        let mut order: Vec<usize> = (0..self.vertices).collect();
        order.sort_by_key(|vertex| std::cmp::Reverse(degree(vertex)));
        order
    }
}

/// A set of target vertices.
type Set<const WORDS: usize> = [u64; WORDS];

/// The kinds of rows: the successors of a vertex, its predecessors, those that are both.
const SUCCESSORS: usize = 0;
const PREDECESSORS: usize = 1;
const BOTH: usize = 2;
const KINDS: usize = 3;

/// The rows of the target's vertices, without the vertices themselves: of each kind those of all vertices.
fn rows<const WORDS: usize>(target: &Graph) -> Vec<Set<WORDS>> {
    let count = target.vertices;
    let mut rows = vec![[0; WORDS]; KINDS * count];
    for vertex in 0..count {
        for other in (0..count).filter(|other| *other != vertex) {
            let bit = |there: bool| u64::from(there) << (other % BITS);
            let (to, from) = (target.arcs[vertex][other], target.arcs[other][vertex]);
            rows[SUCCESSORS * count + vertex][other / BITS] |= bit(to);
            rows[PREDECESSORS * count + vertex][other / BITS] |= bit(from);
            rows[BOTH * count + vertex][other / BITS] |= bit(to && from);
        }
    }
    rows
}

/// Of a pattern vertex and another, the kinds of the rows of an image of the one in which the images of the other are, and
/// the other way round; or nothing where no arc joins them.
fn kinds_of_rows(pattern: &Graph, vertex: usize, other: usize) -> Option<(usize, usize)> {
    match (pattern.arcs[vertex][other], pattern.arcs[other][vertex]) {
        (true, false) => Some((SUCCESSORS, PREDECESSORS)),
        (false, true) => Some((PREDECESSORS, SUCCESSORS)),
        (true, true) => Some((BOTH, BOTH)),
        (false, false) => None,
    }
}

/// A later neighbour of a pattern vertex.
#[derive(Clone, Copy)]
struct Neighbour {
    /// Its place in the order.
    place: usize,
    /// Where the rows begin in which its images are, one for each image of the vertex.
    images: usize,
    /// Where the rows begin in which the vertex's images are, one for each of its images.
    origins: usize,
}

struct Search<const WORDS: usize> {
    /// The pattern's vertices in the order in which they are mapped.
    order: Vec<usize>,
    rows: Vec<Set<WORDS>>,
    /// The later neighbours of the vertex at each place of the order.
    neighbours: Vec<Vec<Neighbour>>,
    /// The places of the later vertices that are no neighbours.
    strangers: Vec<Vec<usize>>,
    /// For each depth, the candidates of the vertex at each place of the order.
    candidates: Vec<Set<WORDS>>,
    images: Vec<usize>,
    /// How many children there were, and how many of them were visited.
    made: u64,
    visited: u64,
}

impl<const WORDS: usize> Search<WORDS> {
    fn of(pattern: &Graph, target: &Graph) -> Search<WORDS> {
        let order = pattern.order();
        let count = order.len();
        let first = order.iter().map(|vertex| fitting(pattern, target, *vertex));
        let mut candidates: Vec<_> = first.collect();
        candidates.resize(count * count, [0; WORDS]);
        let mut neighbours = vec![Vec::new(); count];
        let mut strangers = vec![Vec::new(); count];
        for place in 0..count {
            for later in place + 1..count {
                match kinds_of_rows(pattern, order[place], order[later]) {
                    Some((images, origins)) => neighbours[place].push(Neighbour {
                        place: later,
                        images: images * target.vertices,
                        origins: origins * target.vertices,
                    }),
                    None => strangers[place].push(later),
                }
            }
        }
        Search {
            neighbours,
            rows: rows(target),
            strangers,
            candidates,
            images: vec![0; count],
            order,
            made: 0,
            visited: 0,
        }
    }

    /// Judges the children of the map of the first `depth` vertices, and searches below those that are visited. Answers
    /// whether a whole map was found, which is then the images.
    fn children(&mut self, depth: usize) -> bool {
        let count = self.order.len();
        self.made += size(&self.candidates[depth * count + depth]);
        let mut left = self.survivors(depth);
        while let Some(image) = take_least(&mut left) {
            self.visited += 1;
            self.images[depth] = image;
            if depth + 1 == count || self.below(depth, image) {
                return true;
            }
        }
        false
    }

    /// Searches below the child that maps the vertex at the depth's place to this image.
    fn below(&mut self, depth: usize, image: usize) -> bool {
        let count = self.order.len();
        let (above, below) = self.candidates.split_at_mut((depth + 1) * count);
        let (now, next) = (&above[depth * count..], &mut below[..count]);
        for neighbour in &self.neighbours[depth] {
            let row = &self.rows[neighbour.images + image];
            next[neighbour.place] = intersection(&now[neighbour.place], row);
        }
        for stranger in &self.strangers[depth] {
            next[*stranger] = now[*stranger];
            next[*stranger][image / BITS] &= !(1 << (image % BITS));
        }
        self.children(depth + 1)
    }

    /// The candidates for the vertex at the depth's place that leave a candidate for each later vertex.
    fn survivors(&self, depth: usize) -> Set<WORDS> {
        let count = self.order.len();
        let now = &self.candidates[depth * count..(depth + 1) * count];
        let mut survivors = now[depth];
        for stranger in &self.strangers[depth] {
            let others = &now[*stranger];
            if has_at_most_one(others) {
                if is_empty(others) {
                    return [0; WORDS];
                }
                survivors = difference(&survivors, others);
            }
        }
        for neighbour in &self.neighbours[depth] {
            if is_empty(&survivors) {
                break;
            }
            let origins = &self.rows[neighbour.origins..];
            survivors = match only(&survivors) {
                Some(image) => {
                    let row = &self.rows[neighbour.images + image];
                    if is_empty(&intersection(&now[neighbour.place], row)) {
                        return [0; WORDS];
                    }
                    survivors
                }
                None => supported(&survivors, &now[neighbour.place], origins),
            };
        }
        survivors
    }
}

/// The candidates before any vertex is mapped.
fn fitting<const WORDS: usize>(pattern: &Graph, target: &Graph, vertex: usize) -> Set<WORDS> {
    let mut fitting = [0; WORDS];
    for image in 0..target.vertices {
        let looped = target.arcs[image][image] || !pattern.arcs[vertex][vertex];
        let successors = target.successors[image] >= pattern.successors[vertex];
        let predecessors = target.predecessors[image] >= pattern.predecessors[vertex];
        let fits = looped && successors && predecessors;
        fitting[image / BITS] |= u64::from(fits) << (image % BITS);
    }
    fitting
}

/// The candidates that are in the row of a candidate of a neighbour.
#[inline]
fn supported<const WORDS: usize>(
    candidates: &Set<WORDS>,
    others: &Set<WORDS>,
    origins: &[Set<WORDS>],
) -> Set<WORDS> {
    let mut others = *others;
    let mut unsupported = *candidates;
    while let Some(other) = take_least(&mut others) {
        unsupported = difference(&unsupported, &origins[other]);
        if is_empty(&unsupported) {
            return *candidates;
        }
    }
    difference(candidates, &unsupported)
}

/// The member of a set that has one alone.
#[inline]
fn only<const WORDS: usize>(set: &Set<WORDS>) -> Option<usize> {
    let mut set = *set;
    let least = take_least(&mut set);
    if is_empty(&set) { least } else { None }
}

/// Takes the least member off a set.
#[inline]
fn take_least<const WORDS: usize>(set: &mut Set<WORDS>) -> Option<usize> {
    for (index, word) in set.iter_mut().enumerate() {
        if *word != 0 {
            let bit = word.trailing_zeros() as usize;
            *word &= *word - 1;
            return Some(index * BITS + bit);
        }
    }
    None
}

#[inline]
fn size<const WORDS: usize>(set: &Set<WORDS>) -> u64 {
    set.iter().map(|word| u64::from(word.count_ones())).sum()
}

#[inline]
fn is_empty<const WORDS: usize>(set: &Set<WORDS>) -> bool {
    set.iter().fold(0, |all, word| all | word) == 0
}

/// Whether a set has no or one member.
#[inline]
fn has_at_most_one<const WORDS: usize>(set: &Set<WORDS>) -> bool {
    let (mut some, mut more) = (false, false);
    for word in set {
        more |= (word & word.wrapping_sub(1) != 0) | (some & (*word != 0));
        some |= *word != 0;
    }
    !more
}

#[inline]
fn intersection<const WORDS: usize>(a: &Set<WORDS>, b: &Set<WORDS>) -> Set<WORDS> {
    std::array::from_fn(|index| a[index] & b[index])
}

#[inline]
fn difference<const WORDS: usize>(a: &Set<WORDS>, b: &Set<WORDS>) -> Set<WORDS> {
    std::array::from_fn(|index| a[index] & !b[index])
}
