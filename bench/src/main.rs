//! bench              every piece of work, timed, as a table
//! bench NAME..       the rows of these alone
//! bench once NAME SIDE COUNT   one piece of work so often, by `ours` or `plain`: for an instruction counter
#[cfg(test)]
mod blank;
#[cfg(test)]
mod c;
mod callgrind;
mod day;
#[cfg(test)]
mod example;
#[cfg(test)]
mod header;
#[cfg_attr(not(test), allow(dead_code))] // some are called by tests alone
mod linked;
mod plain;
#[cfg(test)]
mod record;
mod table;
mod works;

fn once(name: &str, side: &str, count: u64) {
    let (_, make) = works::all().into_iter().find(|w| w.0 == name).expect("a work's name");
    let mut work = make();
    for _ in 0..count {
        match side {
            "ours" => (work.ours)(),
            _ => (work.plain)(),
        }
    }
}

fn main() {
    let args: Vec<String> = std::env::args().skip(1).collect();
    let args: Vec<&str> = args.iter().map(String::as_str).collect();
    match args[..] {
        ["once", name, side, count] => once(name, side, count.parse().expect("a count")),
        [] => {
            table::head();
            for (name, make) in works::all() {
                table::row(name, make());
            }
            table::whole_replay();
            day::all();
        }
        ref names if names.iter().all(|n| works::all().iter().any(|w| w.0 == *n)) => {
            table::head();
            for (name, make) in works::all().into_iter().filter(|w| names.contains(&w.0)) {
                table::row(name, make());
            }
        }
        _ => eprintln!("usage: bench, bench NAME.., or bench once NAME ours|plain COUNT"),
    }
}
