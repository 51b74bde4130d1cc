//! The library's speed, each figure beside that of plain safe Rust doing the same job on the same input in the same run. Prints
//! the tables of docs/BENCHMARKS.md. SENDOSHI_BENCH_QUICK leaves out what takes long; SENDOSHI_EARLIER adds a table beside an
//! earlier version of the library.

mod clock;
mod earlier;
mod files;
mod growth;
mod hard;
mod inputs;
mod judged;
mod machine;
mod measure;
mod sides;
mod table;

fn main() {
    // `cargo test --benches` runs this too: it measures nothing.
    if !std::env::args().any(|argument| argument == "--bench") {
        return;
    }
    let quick = std::env::var_os("SENDOSHI_BENCH_QUICK").is_some();
    println!("# Benchmarks\n");
    println!("{}\n", machine::line());
    println!(
        "Each row runs the library and plain safe Rust (`rust/plain`, optimised alike, searching in the same way unless the table \
         says otherwise) by turns on the same input, after comparing their answers. Placements are the transactions that plain \
         Rust places while it searches. Times are processor time, medians over the samples; the ratio is the median of the ratios \
         of neighbouring samples. Buffers are allocated once and not cleared between runs. `cargo bench --bench library` in \
         `rust/` prints this page.\n"
    );
    files::print();
    judged::print();
    hard::print();
    hard::print_by_trying(quick);
    growth::print();
    if let Some(path) = std::env::var_os("SENDOSHI_EARLIER") {
        earlier::print(&path, quick);
    }
}
