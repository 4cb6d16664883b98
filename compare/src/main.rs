//! The original and ours side by side: `compare run`, `compare bench` (of it `compare keys`, `compare schedules`,
//! `compare ways`), `compare differences`, and `compare replay`, which writes crate replay's files.
mod bench;
mod checks;
mod circuits;
mod differences;
mod given;
mod layout;
mod plain;
mod reading;
mod replay;
mod run;
mod sawhekonu;
mod views;

fn main() {
    layout::check();
    let words: Vec<String> = std::env::args().skip(1).collect();
    let number = |usual| words.get(1).map_or(usual, |w| w.parse().expect("a number"));
    match words.first().map(String::as_str) {
        Some("run") => run::main(number(1)),
        Some("bench") => bench::main(number(31)),
        Some("keys") => bench::worst_keys(number(31)),
        Some("schedules") => bench::schedules(number(31)),
        Some("ways") => bench::ways(number(31)),
        Some("differences") => differences::main(),
        Some("replay") => replay::main(words.get(1).expect("the crate's folder")),
        _ => {
            eprintln!(
                "compare run [0: a short run] | compare bench, keys, schedules or ways [TURNS] | compare differences | \
                 compare replay FOLDER"
            );
            std::process::exit(2);
        }
    }
}
