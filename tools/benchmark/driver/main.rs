//! Calls the original, the port and the limit in C on the same packets and lists, each N and then 2 N times between two marks.
//! A program that counts instructions between the marks gives the cost of one call: (second - first) / N.
//!
//!     driver DATABASE SYNS             the measurement; a line for each pair of windows, in their order
//!     driver DATABASE bundle N FILE    a bundle of N packets for the program termread

mod bundle;
mod limit;
mod lines;
mod lists;
mod modes;
mod observations;
mod original;
mod packets;
mod port;
mod searches;
mod window;
mod work;
mod written;

/// The heap of a program that ran a while: freed blocks of every small size, none beside another. Where the original's list of options
/// grows then does not depend on what this program allocated before.
fn used_heap() {
    let blocks: Vec<Vec<u8>> = (0..16).flat_map(|_| (1..40).map(|words| Vec::with_capacity(16 * words))).collect();
    let (freed, held): (Vec<_>, Vec<_>) = blocks.into_iter().enumerate().partition(|(i, _)| i % 2 == 0);
    drop(freed);
    std::mem::forget(held);
}

fn main() {
    let arguments: Vec<String> = std::env::args().skip(1).collect();
    let text = std::fs::read_to_string(arguments.first().expect("a p0f database")).expect("it is read");
    let (lines, kinds) = lists::section(&text, "tcp:request");
    match &arguments[1..] {
        [syns] => {
            let every = [&lines[..], &lists::section(&text, "tcp:response").0].concat();
            used_heap();
            observations::all();
            searches::all(&lines, &kinds);
            work::all(&lines, &kinds, &std::fs::read(syns).expect("the SYNs are read"));
            lines::all(&every);
            written::all(&every);
            modes::all(&lines);
        }
        [word, count, file] if word == "bundle" => {
            let bytes = bundle::of(&lines, count.parse().expect("a number"));
            std::fs::write(file, bytes).expect("the bundle is written");
        }
        _ => panic!("usage: driver DATABASE SYNS, driver DATABASE bundle N FILE"),
    }
}
