//! Writes the bytes of the two tables and of the relation that a relation file
//! describes.

use std::path::Path;
use std::{env, fs, process};

fn main() {
    let words: Vec<String> = env::args().skip(1).collect();
    let [example, left, right, relation] = words.as_slice() else {
        fail("usage: text FILE.relation LEFT RIGHT RELATION");
    };
    let example = match text::read(Path::new(example)) {
        Ok(example) => example,
        Err(why) => fail(&why),
    };
    for (name, bytes) in [
        (left, example.left),
        (right, example.right),
        (relation, example.relation),
    ] {
        if let Err(why) = fs::write(name, bytes) {
            fail(&format!("{name}: {why}"));
        }
    }
}

fn fail(why: &str) -> ! {
    eprintln!("{why}");
    process::exit(2);
}
