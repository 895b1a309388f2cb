//! Sheets of n vertices, n from 1 to 64: valid ones, damaged ones, ones made to deceive, and words of any kind.

use crate::graphs;
use crate::model::{self, Counts, Graph};
use crate::recurrence;
use crate::rng::Rng;

/// A maker of one kind of sheet. It gives nothing if this n has no such sheet, or if none came of what was drawn.
type Maker = fn(&mut Rng, usize) -> Option<Vec<u64>>;

/// The name of the kind that is valid.
pub const VALID: &str = "valid";

/// Each kind: how often, its name, its maker.
const KINDS: &[(usize, (&str, Maker))] = &[
    (40, (VALID, valid)),
    (12, ("acyclic rows, random counts", random_counts)),
    (5, ("one count one more or less", count_one_off)),
    (5, ("one bit of a count flipped", count_bit_flipped)),
    (3, ("one count random", count_random)),
    (3, ("two counts exchanged", counts_exchanged)),
    (3, ("counts transposed", counts_transposed)),
    (3, ("counts of another graph", counts_of_another)),
    (3, ("counts of the same graph renamed", counts_of_renamed)),
    (5, ("one bit of a row flipped", row_bit_flipped)),
    (8, ("a stray bit", stray_bit)),
    (4, ("a cycle and a stray bit", cycle_and_stray_bit)),
    (6, ("a self loop", self_loop)),
    (4, ("a cycle of two", cycle_of_two)),
    (5, ("a path closed", path_closed)),
    (3, ("all vertices in one cycle", one_cycle)),
    (3, ("a cycle, each count the number of paths", cycle_with_paths_listed)),
    (2, ("a random graph, the recurrence holds", recurrence_on_random)),
    (2, ("a path closed, the recurrence holds", recurrence_on_closed)),
    (2, ("the core, the recurrence holds", recurrence_on_core)),
    (2, ("a fan closed, the recurrence holds", recurrence_on_fan)),
    (5, ("a random graph, small counts", random_graph)),
    (5, ("a way round and back", way_round)),
    (5, ("a way on from the end and back", way_on)),
    (3, ("one word flipped", word_flipped)),
    (6, ("random rows, most counts 0", most_counts_0)),
    (4, ("random words", random_words)),
    (4, ("sparse random words", sparse_words)),
    (1, ("all ones", all_ones)),
    (1, ("all zeros", all_zeros)),
];

/// The names of all kinds.
pub fn kinds() -> impl Iterator<Item = &'static str> {
    KINDS.iter().map(|&(_, (name, _))| name)
}

/// A sheet of n vertices, and its kind.
pub fn make(rng: &mut Rng, n: usize) -> (Vec<u64>, &'static str) {
    loop {
        let (name, maker) = rng.weighted(KINDS);
        if let Some(sheet) = maker(rng, n) {
            return (sheet, name);
        }
    }
}

/// The sheet with these edges and these counts, valid or not.
pub fn sheet_of(graph: &Graph, counts: &Counts) -> Vec<u64> {
    let n = graph.len();
    let mut sheet = vec![0; n + n * n];
    model::write_rows(graph, &mut sheet);
    model::write_counts(counts, &mut sheet);
    sheet
}

fn counts_of_acyclic(graph: &Graph) -> Counts {
    model::counts_by_order(graph).expect("an acyclic graph")
}

/// The valid sheet of an acyclic graph.
pub fn valid_sheet_of(graph: &Graph) -> Vec<u64> {
    sheet_of(graph, &counts_of_acyclic(graph))
}

fn valid(rng: &mut Rng, n: usize) -> Option<Vec<u64>> {
    Some(valid_sheet_of(&graphs::acyclic(rng, n)))
}

fn random_counts(rng: &mut Rng, n: usize) -> Option<Vec<u64>> {
    let mut sheet = rng.words(n + n * n);
    model::write_rows(&graphs::acyclic(rng, n), &mut sheet);
    Some(sheet)
}

/// A valid sheet with a change of one count.
fn with_count_changed(rng: &mut Rng, n: usize, change: fn(&mut Rng, u64) -> u64) -> Option<Vec<u64>> {
    let mut sheet = valid(rng, n)?;
    let at = n + rng.below(n * n);
    sheet[at] = change(rng, sheet[at]);
    Some(sheet)
}

fn count_one_off(rng: &mut Rng, n: usize) -> Option<Vec<u64>> {
    with_count_changed(rng, n, |rng, count| count.wrapping_add(rng.pick(&[1, u64::MAX])))
}

fn count_bit_flipped(rng: &mut Rng, n: usize) -> Option<Vec<u64>> {
    with_count_changed(rng, n, |rng, count| {
        let any = rng.below(64);
        count ^ (1 << rng.pick(&[0, 31, 32, 61, 62, 63, any]))
    })
}

fn count_random(rng: &mut Rng, n: usize) -> Option<Vec<u64>> {
    with_count_changed(rng, n, |rng, _| rng.word())
}

fn counts_exchanged(rng: &mut Rng, n: usize) -> Option<Vec<u64>> {
    let mut sheet = valid(rng, n)?;
    sheet.swap(n + rng.below(n * n), n + rng.below(n * n));
    Some(sheet)
}

fn counts_transposed(rng: &mut Rng, n: usize) -> Option<Vec<u64>> {
    let graph = graphs::acyclic(rng, n);
    let counts = counts_of_acyclic(&graph);
    let transposed = (0..n).map(|i| (0..n).map(|j| counts[j][i]).collect()).collect();
    Some(sheet_of(&graph, &transposed))
}

fn counts_of_another(rng: &mut Rng, n: usize) -> Option<Vec<u64>> {
    let graph = graphs::acyclic(rng, n);
    Some(sheet_of(&graph, &counts_of_acyclic(&graphs::acyclic(rng, n))))
}

fn counts_of_renamed(rng: &mut Rng, n: usize) -> Option<Vec<u64>> {
    let graph = graphs::acyclic(rng, n);
    let names = rng.shuffled(n);
    Some(sheet_of(&graph, &counts_of_acyclic(&graphs::renamed(&graph, &names))))
}

fn row_bit_flipped(rng: &mut Rng, n: usize) -> Option<Vec<u64>> {
    let mut sheet = valid(rng, n)?;
    sheet[rng.below(n)] ^= 1 << rng.below(n);
    Some(sheet)
}

/// Sets a bit at n or above in some row: nothing if n is 64.
fn add_stray_bit(rng: &mut Rng, n: usize, sheet: &mut [u64]) -> Option<()> {
    if n == 64 {
        return None;
    }
    sheet[rng.below(n)] |= 1 << (n + rng.below(64 - n));
    Some(())
}

fn stray_bit(rng: &mut Rng, n: usize) -> Option<Vec<u64>> {
    let mut sheet = valid(rng, n)?;
    add_stray_bit(rng, n, &mut sheet)?;
    Some(sheet)
}

fn cycle_and_stray_bit(rng: &mut Rng, n: usize) -> Option<Vec<u64>> {
    let mut sheet = if rng.one_in(2) {
        self_loop(rng, n)?
    } else {
        path_closed(rng, n)?
    };
    add_stray_bit(rng, n, &mut sheet)?;
    Some(sheet)
}

/// The counts are as if the loop were not there.
fn self_loop(rng: &mut Rng, n: usize) -> Option<Vec<u64>> {
    let mut sheet = valid(rng, n)?;
    let vertex = rng.below(n);
    sheet[vertex] |= 1 << vertex;
    Some(sheet)
}

fn cycle_of_two(rng: &mut Rng, n: usize) -> Option<Vec<u64>> {
    let graph = graphs::acyclic(rng, n);
    let edges = graphs::edges(&graph);
    if edges.is_empty() {
        return None;
    }
    let (from, to) = rng.pick(&edges);
    let mut sheet = valid_sheet_of(&graph);
    sheet[to] |= 1 << from;
    Some(sheet)
}

fn path_closed(rng: &mut Rng, n: usize) -> Option<Vec<u64>> {
    let graph = graphs::acyclic(rng, n);
    Some(sheet_of(&graphs::closed(rng, &graph)?, &counts_of_acyclic(&graph)))
}

/// A chain through all vertices and the edge from its end to its start.
fn one_cycle(rng: &mut Rng, n: usize) -> Option<Vec<u64>> {
    let chain = graphs::chain(rng, n);
    let mut cycle = chain.clone();
    cycle[n - 1][0] = true;
    let names = rng.shuffled(n);
    Some(sheet_of(
        &graphs::renamed(&cycle, &names),
        &counts_of_acyclic(&graphs::renamed(&chain, &names)),
    ))
}

/// A graph with a cycle has paths, and their numbers, as well.
fn cycle_with_paths_listed(rng: &mut Rng, n: usize) -> Option<Vec<u64>> {
    if n > model::LISTED {
        return None;
    }
    let acyclic = graphs::acyclic(rng, n);
    let graph = graphs::closed(rng, &acyclic)?;
    Some(sheet_of(&graph, &model::counts_by_listing(&graph)))
}

/// The graph with the counts that satisfy the recurrence: nothing if it has no cycle, or has no such counts.
fn with_recurrence(graph: &Graph) -> Option<Vec<u64>> {
    if !graphs::has_cycle(graph) {
        return None;
    }
    let counts = recurrence::solve(graph)?;
    assert!(recurrence::holds(graph, &counts), "the counts solve the recurrence");
    Some(sheet_of(graph, &counts))
}

fn recurrence_on_random(rng: &mut Rng, n: usize) -> Option<Vec<u64>> {
    (0..8).find_map(|_| {
        let self_loops = rng.one_in(3);
        with_recurrence(&graphs::random(rng, n, self_loops))
    })
}

/// One edge from v back to u has such counts exactly if the number of paths from u to v is even.
fn recurrence_on_closed(rng: &mut Rng, n: usize) -> Option<Vec<u64>> {
    let mut graph = graphs::acyclic(rng, n);
    let counts = counts_of_acyclic(&graph);
    let pairs = (0..n).flat_map(|u| (0..n).map(move |v| (u, v)));
    let even: Vec<(usize, usize)> = pairs.filter(|&(u, v)| counts[u][v] > 0 && counts[u][v] % 2 == 0).collect();
    if even.is_empty() {
        return None;
    }
    let (u, v) = rng.pick(&even);
    graph[v][u] = true;
    with_recurrence(&graph)
}

/// Six vertices with cycles, whose counts by the recurrence are 1 from each vertex to itself and 0 against every edge.
const CORE: [&[usize]; 6] = [&[1, 4], &[0, 5], &[4, 5], &[2], &[0, 2], &[1, 3]];

/// The core inside an acyclic graph: the others' edges run into it, out of it, or past it.
fn recurrence_on_core(rng: &mut Rng, n: usize) -> Option<Vec<u64>> {
    if n < CORE.len() {
        return None;
    }
    let start = rng.below(n - CORE.len() + 1);
    let density = rng.below(12);
    let place = |v: usize| (start..start + CORE.len()).contains(&v).then(|| v - start);
    let graph = graphs::of_rule(n, |i, j| match (place(i), place(j)) {
        (Some(from), Some(to)) => CORE[from].contains(&to),
        _ => i < j && rng.below(16) < density,
    });
    with_recurrence(&graphs::shuffled(rng, &graph))
}

/// One vertex with an edge to each of 16 or 32, each of these with an edge to one last, and an edge from the last to the first.
/// By the recurrence every count is then below 2 to the 62.
fn recurrence_on_fan(rng: &mut Rng, n: usize) -> Option<Vec<u64>> {
    let wide = rng.pick(&[16, 32]);
    if n < wide + 2 {
        return None;
    }
    let last = wide + 1;
    let middle = |v: usize| (1..last).contains(&v);
    let graph = graphs::of_rule(n, |i, j| {
        (i == 0 && middle(j)) || (middle(i) && j == last) || (i == last && j == 0)
    });
    let names = rng.shuffled(n);
    with_recurrence(&graphs::renamed(&graph, &names))
}

fn random_graph(rng: &mut Rng, n: usize) -> Option<Vec<u64>> {
    let self_loops = rng.one_in(4);
    let graph = graphs::random(rng, n, self_loops);
    let counts = (0..n).map(|_| (0..n).map(|_| rng.word() % 4).collect()).collect();
    Some(sheet_of(&graph, &counts))
}

/// A chain and, besides, an edge from its first vertex to one more and an edge back. The count from the first vertex to the end
/// of the chain is 2, that from every other is 1, and path number 1 goes round and then along the chain: through n + 1 vertices,
/// through n if one vertex is left out of it, or fewer.
fn way_round(rng: &mut Rng, n: usize) -> Option<Vec<u64>> {
    let left_out = rng.pick(&[0, 0, 1, 2]);
    if n < 4 + left_out {
        return None;
    }
    let (round, end) = (n - 1, n - 2 - left_out);
    let graph = graphs::of_rule(n, |i, j| {
        (i < end && j == i + 1) || (i == 0 && j == round) || (i == round && j == 0)
    });
    let mut counts = model::identity(n);
    (0..end).chain([round]).for_each(|i| counts[i][end] = 1);
    counts[0][end] = 2;
    Some(shuffled_but(rng, &graph, &counts, (1, round)))
}

/// An edge from vertex 0 to vertex 1, edges from this to two more, and an edge back to it from the second of these. The counts
/// from 0 and from 1 to 1 are 2, so that path number 1 comes to its end with a number left, which the ways on would take off.
fn way_on(rng: &mut Rng, n: usize) -> Option<Vec<u64>> {
    if n < 4 {
        return None;
    }
    let graph = graphs::of_rule(n, |i, j| [(0, 1), (1, 2), (1, 3), (3, 1)].contains(&(i, j)));
    let mut counts = model::identity(n);
    (0..4).for_each(|i| counts[i][1] = if i < 2 { 2 } else { 1 });
    Some(shuffled_but(rng, &graph, &counts, (2, 3)))
}

/// The sheet with its vertices renamed, but of two vertices the first still comes before the second.
fn shuffled_but(rng: &mut Rng, graph: &Graph, counts: &Counts, (first, second): (usize, usize)) -> Vec<u64> {
    let mut names = rng.shuffled(graph.len());
    if names[first] > names[second] {
        names.swap(first, second);
    }
    let mut renamed = counts.clone();
    for (i, row) in counts.iter().enumerate() {
        for (j, &count) in row.iter().enumerate() {
            renamed[names[i]][names[j]] = count;
        }
    }
    sheet_of(&graphs::renamed(graph, &names), &renamed)
}

fn word_flipped(rng: &mut Rng, n: usize) -> Option<Vec<u64>> {
    let mut sheet = valid(rng, n)?;
    let at = rng.below(sheet.len());
    sheet[at] = !sheet[at];
    Some(sheet)
}

/// Edits of such a sheet are accepted, and reach any word.
fn most_counts_0(rng: &mut Rng, n: usize) -> Option<Vec<u64>> {
    let mut sheet = random_words(rng, n)?;
    for count in &mut sheet[n..] {
        if !rng.one_in(4) {
            *count = 0;
        }
    }
    Some(sheet)
}

fn random_words(rng: &mut Rng, n: usize) -> Option<Vec<u64>> {
    Some(rng.words(n + n * n))
}

fn sparse_words(rng: &mut Rng, n: usize) -> Option<Vec<u64>> {
    let thinnings = 2 + rng.below(5);
    let thin = |rng: &mut Rng| (0..thinnings).fold(u64::MAX, |word, _| word & rng.word());
    Some((0..n + n * n).map(|_| thin(rng)).collect())
}

fn all_ones(_: &mut Rng, n: usize) -> Option<Vec<u64>> {
    Some(vec![u64::MAX; n + n * n])
}

fn all_zeros(_: &mut Rng, n: usize) -> Option<Vec<u64>> {
    Some(vec![0; n + n * n])
}
