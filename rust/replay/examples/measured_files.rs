//! Writes the rule files that reading, checking and running are measured on into the folder named by the argument, all of them
//! strict texts.

use evaluator::machine::strict_text;
use evaluator::syntax::File;
use generator::depths::{deepest_bodies, endless_calls, Level};
use generator::{edges, growth, writer};
use std::fs;
use std::io;
use std::path::Path;

/// The size at which a branch is split.
const SPLIT_SIZE: usize = 16;

/// The files of `examples/` that are measured.
const EXAMPLES: [&str; 2] = ["listing3", "top10sum"];

/// The names are what `tools/measure-reading`, `tools/measure-checking` and `tools/measure-running` look for.
fn files() -> Vec<(String, File)> {
    let sums = [("sums".to_string(), growth::sums(7, 9))];
    let sides = [(2, 5), (10, 10), (25, 40)];
    let instances = sides.map(|(left, right)| {
        let name = format!("instances-{}", left * right);
        (name, edges::instances(left, right))
    });
    let splits = [1, 2, 3, 4].map(|fields| {
        let name = format!("splits-{fields}");
        (name, growth::splits(fields, SPLIT_SIZE))
    });
    let deepest = Level::ALL.map(|level| {
        let name = format!("deepest-{level:?}").to_lowercase();
        (name, deepest_bodies(level))
    });
    let endless = Level::ALL.map(|level| {
        let name = format!("endless-{level:?}").to_lowercase();
        (name, endless_calls(level))
    });
    let all = sums.into_iter().chain(instances).chain(splits);
    all.chain(deepest).chain(endless).collect()
}

/// The strict text of an example.
fn strict_example(name: &str) -> io::Result<Vec<u8>> {
    let folder = Path::new(env!("CARGO_MANIFEST_DIR")).join("../../examples");
    let text = fs::read(folder.join(format!("{name}.rules")))?;
    Ok(strict_text(&text).expect("a file that is read"))
}

fn main() -> io::Result<()> {
    let folder = std::env::args().nth(1).expect("the name of a folder");
    let path = |name: &str| Path::new(&folder).join(format!("{name}.rules"));
    for name in EXAMPLES {
        fs::write(path(name), strict_example(name)?)?;
    }
    for (name, file) in files() {
        fs::write(path(&name), writer::text(&file))?;
    }
    Ok(())
}
