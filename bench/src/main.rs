//! The proved library beside the plain program, in one process.
//!
//!     bench                     compare both, then measure both: a table
//!     bench some PART           only the cases that have the part in their names, not compared before
//!     bench compare COUNT SEED  compare both on so many inputs of each family
//!     bench list                the cases, a line each
//!     bench calls CASE SIDE N   N calls of one case (its number in the list) and nothing else measured: for a counter
//!     bench shapes              the same for shapes of payloads, a table of their own
//!     bench shapes some PART    only the shapes that have the part in their names
//!     bench shapes list | shapes calls CASE SIDE N

mod cases;
mod equal;
mod measure;
mod pair;
mod shapes;
mod tables;

const COMPARED: usize = 20_000;
const SEED: u64 = 1;

fn main() {
    let arguments: Vec<String> = std::env::args().skip(1).collect();
    let words: Vec<&str> = arguments.iter().map(String::as_str).collect();
    let number = |word: &str| word.parse::<usize>().unwrap_or_else(|_| usage());
    match words.as_slice() {
        [] => {
            compared();
            table("");
        }
        ["some", part] => table(part),
        ["shapes"] => {
            compared();
            shapes::tables("");
        }
        ["shapes", "some", part] => shapes::tables(part),
        ["shapes", "list"] => shapes::names().iter().for_each(|name| println!("{name}")),
        ["shapes", "calls", case, side, count] => {
            let mut sides = shapes::sides(number(case)).unwrap_or_else(|| usage());
            let at = shapes::SIDES.iter().position(|name| name == side);
            at.and_then(|at| sides.get_mut(at))
                .unwrap_or_else(|| usage())(number(count));
        }
        ["compare", count, seed] => {
            equal::compare(number(count), number(seed) as u64);
            println!(
                "both programs gave the same on {count} inputs of each family from seed {seed}"
            );
        }
        ["list"] => cases::all()
            .iter()
            .for_each(|case| println!("{}", case.name)),
        ["calls", case, side, count] => {
            let all = cases::all();
            let case = (all.get(number(case)).unwrap_or_else(|| usage()).make)();
            let calls = match *side {
                "ours" => Some(case.ours),
                "plain" => Some(case.plain),
                _ => case.bare,
            };
            calls.unwrap_or_else(|| usage())(number(count));
        }
        _ => usage(),
    }
}

fn usage() -> ! {
    eprintln!(
        "usage: bench [some PART | compare COUNT SEED | list | calls CASE ours|plain|bare N]"
    );
    eprintln!("       bench shapes [some PART | list | calls CASE walk|plan|rust|rust-plan N]");
    std::process::exit(2)
}

fn compared() {
    equal::compare(COMPARED, SEED);
    println!("Both programs gave the same on {COMPARED} inputs of each family from seed {SEED}.\n");
}

fn table(part: &str) {
    println!("| Case | Ours, ns | Rust, ns | Ours / Rust | Copy, ns | Ours / copy |");
    println!("|---|---:|---:|---:|---:|---:|");
    let all = cases::all().into_iter();
    for case in all.filter(|case| case.name.contains(part)) {
        let times = measure::measure((case.make)());
        let bare = times.bare.map_or("– | –".to_string(), |copy| {
            format!("{copy:.1} | {:.2}", times.ours / copy)
        });
        let ratio = times.ours / times.plain;
        println!(
            "| {} | {:.1} | {:.1} | {ratio:.2} | {bare} |",
            case.name, times.ours, times.plain
        );
    }
}
