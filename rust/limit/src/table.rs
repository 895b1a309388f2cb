//! The table: every call but `empty` on each of the four graphs of 64 vertices, ours beside plain C, from scratch and the floor.

use crate::{
    blocks::{self, Block},
    graphs::IN_ORDER,
    work::Work,
};

/// The most that ours may take, as a multiple of what plain C takes.
const AGAINST_PLAIN: f64 = 1.15;
/// The most that a validation or a recount of ours may take, as a multiple of what working all counts out from scratch takes.
const AGAINST_SCRATCH: f64 = 1.15;

/// Calls that are timed together, each with its part of the block, and whether from scratch and floor are timed beside them.
struct Group {
    calls: &'static [(&'static str, usize)],
    block: Block,
    beside: bool,
}

const GROUPS: [Group; 10] = [
    Group {
        calls: &[("insert_edge", 1), ("delete_edge", 0)],
        block: blocks::edges,
        beside: true,
    },
    Group {
        calls: &[("insert_edges_at", 1), ("delete_edges_at", 0)],
        block: blocks::vertices,
        beside: true,
    },
    Group {
        calls: &[("validate", 0)],
        block: blocks::validate,
        beside: true,
    },
    Group {
        calls: &[("recount", 0)],
        block: blocks::recount,
        beside: true,
    },
    Group {
        calls: &[("path_count", 0)],
        block: blocks::path_count,
        beside: false,
    },
    Group {
        calls: &[("reaches_without", 0)],
        block: blocks::reaches_without,
        beside: false,
    },
    Group {
        calls: &[("unrank", 0)],
        block: blocks::unrank,
        beside: false,
    },
    Group { calls: &[("rank", 0)], block: blocks::rank, beside: false },
    Group {
        calls: &[("read_plan", 0)],
        block: blocks::read_plan,
        beside: true,
    },
    Group {
        calls: &[("write_plan", 0)],
        block: blocks::write_plan,
        beside: true,
    },
];

/// The median nanoseconds of one call on one graph.
struct Row {
    graph: &'static str,
    call: &'static str,
    ours: f64,
    plain: f64,
    scratch: Option<f64>,
    floor: Option<f64>,
}

/// Measures and prints the table. False if a ratio is over its limit.
pub fn print(works: &[Work], runs: usize) -> bool {
    let edges: Vec<String> = works
        .iter()
        .map(|work| format!("{} {}", work.graph.name, work.graph.edge_count()))
        .collect();
    println!(
        "n = {}; plain C by {}, {}; medians of {runs} interleaved runs; edges: {}; numbers shuffled in all but {IN_ORDER}; ns a call",
        works[0].n(),
        env!("LIMIT_COMPILER"),
        env!("LIMIT_FLAGS"),
        edges.join(", ")
    );
    println!();
    let rows: Vec<Row> = works
        .iter()
        .flat_map(|work| GROUPS.iter().flat_map(move |group| measure(work, group, runs)))
        .collect();
    print_aligned(&rows.iter().map(Row::cells).collect::<Vec<_>>());
    println!();
    print_verdict(&rows)
}

/// The rows of one group on one graph.
fn measure(work: &Work, group: &Group, runs: usize) -> Vec<Row> {
    let times = blocks::against(work, group.block, group.beside, runs);
    let row = |&(call, part): &(&'static str, usize)| Row {
        graph: work.graph.name,
        call,
        ours: times[0][part],
        plain: times[1][part],
        scratch: times.get(2).map(|parts| parts[0]),
        floor: times.get(3).map(|parts| parts[0]),
    };
    group.calls.iter().map(row).collect()
}

impl Row {
    const HEAD: [&'static str; 9] = [
        "graph",
        "call",
        "ours",
        "plain C",
        "ours ÷ plain C",
        "from scratch",
        "ours ÷ from scratch",
        "floor",
        "ours ÷ floor",
    ];

    fn cells(&self) -> [String; 9] {
        let time = |time: Option<f64>| time.map_or("-".into(), rounded);
        let ratio = |to: Option<f64>| to.map_or("-".into(), |to| format!("{:.2}", self.ours / to));
        [
            self.graph.into(),
            self.call.into(),
            rounded(self.ours),
            rounded(self.plain),
            ratio(Some(self.plain)),
            time(self.scratch),
            ratio(self.scratch),
            time(self.floor),
            ratio(self.floor),
        ]
    }

    fn name(&self) -> String {
        format!("{} {}", self.graph, self.call)
    }
}

/// Three digits, and of a time under 100 one decimal.
pub fn rounded(time: f64) -> String {
    if time < 99.95 {
        return format!("{time:.1}");
    }
    let unit = 10f64.powi(time.log10().floor() as i32 - 2);
    format!("{:.0}", (time / unit).round() * unit)
}

fn print_aligned(rows: &[[String; 9]]) {
    let head = Row::HEAD.map(String::from);
    let width = |column: usize| {
        rows.iter()
            .chain([&head])
            .map(|row| row[column].chars().count())
            .max()
            .expect("the head is there")
    };
    let widths: Vec<usize> = (0..9).map(width).collect();
    let line = |row: &[String; 9]| {
        let cell = |(column, text): (usize, &String)| match column {
            0 | 1 => format!("{text:<0$}", widths[column]),
            _ => format!("{text:>0$}", widths[column]),
        };
        format!("| {} |", row.iter().enumerate().map(cell).collect::<Vec<_>>().join(" | "))
    };
    let rule = |(column, width): (usize, &usize)| format!("{}{}", "-".repeat(width + 1), if column < 2 { "-" } else { ":" });
    println!("{}", line(&head));
    println!("|{}|", widths.iter().enumerate().map(rule).collect::<Vec<_>>().join("|"));
    rows.iter().for_each(|row| println!("{}", line(row)));
}

/// Prints the worst ratios and the rows over a limit. False if there is one.
fn print_verdict(rows: &[Row]) -> bool {
    let plain = rows.iter().map(|row| (row.name(), row.ours / row.plain)).collect();
    let counting = rows.iter().filter(|row| ["validate", "recount"].contains(&row.call));
    let scratch = counting
        .filter_map(|row| row.scratch.map(|scratch| (row.name(), row.ours / scratch)))
        .collect();
    let (said_plain, plain_over) = judged("ours ÷ plain C", plain, AGAINST_PLAIN);
    let (said_scratch, scratch_over) = judged("validate and recount, ours ÷ from scratch", scratch, AGAINST_SCRATCH);
    println!("{said_plain}; {said_scratch}");
    !plain_over && !scratch_over
}

/// What is to be said of the ratios under a limit, and whether one is over it.
fn judged(what: &str, mut ratios: Vec<(String, f64)>, limit: f64) -> (String, bool) {
    ratios.sort_by(|a, b| b.1.total_cmp(&a.1));
    let (row, worst) = &ratios[0];
    let beyond = ratios.iter().filter(|(_, ratio)| *ratio > limit);
    let over: Vec<String> = beyond.map(|(row, ratio)| format!("{row} {ratio:.2}")).collect();
    let rows = if over.is_empty() {
        "none over".into()
    } else {
        format!("over: {}", over.join(", "))
    };
    (
        format!("{what}: worst {worst:.2} ({row}), limit {limit}, {rows}"),
        !over.is_empty(),
    )
}
