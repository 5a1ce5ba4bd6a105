//! Prints the verdict and the cut for the volume in a folder.

use std::path::Path;

fn main() {
    let folder = match std::env::args_os().nth(1) {
        Some(folder) => folder,
        None => {
            eprintln!("usage: bench_reference DIR");
            std::process::exit(2);
        }
    };
    // A file that cannot be opened counts as missing, and a missing one as empty.
    let file = |name: &str| std::fs::read(Path::new(&folder).join(name)).unwrap_or_default();
    print!(
        "{}",
        reference::program::answer(
            &file("index.list"),
            &file("index.store"),
            &file("data.list"),
            &file("data.store")
        )
    );
}
