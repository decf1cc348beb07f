//! The C header and the C examples: compiled without a warning, linked with the
//! library, and run beside the oracle; and the commands of both READMEs.

use compare::{Block, Given};
use inputs::{FollowCases, JudgeCases, MakeCases, WriteCase, WriteCases};
use std::collections::BTreeSet;
use std::fs;
use std::os::unix::fs::symlink;
use std::path::{Path, PathBuf};
use std::process::{Command, Output};
use std::sync::atomic::{AtomicUsize, Ordering};

/// Programs in C that are for the tests alone.
const TELLING: &str = "rust/stutter/tests/shared/telling.c";
const MAKERS: &str = "rust/stutter/tests/shared/makers.c";

/// A folder of its own for a compiled example and its files.
struct Room(PathBuf);

impl Room {
    fn empty() -> Room {
        static NEXT: AtomicUsize = AtomicUsize::new(0);
        let number = NEXT.fetch_add(1, Ordering::Relaxed);
        let name = format!("stutter-header-{}-{number}", std::process::id());
        let room = Room(std::env::temp_dir().join(name));
        fs::create_dir_all(&room.0).expect("the folder is made");
        room
    }

    /// Compiles this example.
    fn new(example: &str) -> Room {
        Room::compiled(&[&format!("examples/{example}.c")], &[])
    }

    /// Compiles this example so that it tells what it sets aside and how it commits.
    fn telling(example: &str) -> Room {
        let sources = [&format!("examples/{example}.c"), TELLING];
        Room::compiled(&sources, &["-Wl,--wrap=malloc,--wrap=stutter_commit"])
    }

    /// Compiles these files of the repository with further words for the compiler.
    fn compiled(sources: &[&str], further: &[&str]) -> Room {
        let (room, repository) = (Room::empty(), repository());
        let compiled = Command::new("cc")
            .args(["-std=c11", "-Wall", "-Wextra", "-Wpedantic", "-Werror"])
            .args(["-I", "include", "-I", "examples"])
            .args(sources)
            .args(further)
            .arg("target/staticlib/libstutter.a")
            .arg("-o")
            .arg(room.0.join("program"))
            .current_dir(repository)
            .status()
            .expect("the C compiler starts");
        assert!(compiled.success(), "{sources:?} is not compiled");
        room
    }

    /// A file of this name, as a word of a command.
    fn path(&self, name: &str) -> String {
        self.0.join(name).display().to_string()
    }

    /// Three files with these bytes, as words of a command.
    fn put(&self, files: [&[u8]; 3]) -> Vec<String> {
        let paths = ["left", "right", "third"].map(|name| self.path(name));
        for (path, file) in paths.iter().zip(files) {
            fs::write(path, file).expect("the file is written");
        }
        paths.to_vec()
    }

    /// The bytes of a file that is to be written, where it is.
    fn take(&self, path: &str) -> Option<Vec<u8>> {
        let bytes = fs::read(path).ok()?;
        fs::remove_file(path).expect("the file is removed");
        Some(bytes)
    }

    fn call(&self, words: &[String]) -> Output {
        let mut program = Command::new(self.0.join("program"));
        program.args(words).output().expect("the example runs")
    }

    /// What the example prints for these words.
    fn run(&self, words: &[String]) -> String {
        printed_by(&self.call(words))
    }
}

impl Drop for Room {
    fn drop(&mut self) {
        let _ = fs::remove_dir_all(&self.0);
    }
}

/// What a program that succeeds has printed.
fn printed_by(output: &Output) -> String {
    let told = String::from_utf8_lossy(&output.stderr);
    assert!(output.status.success(), "{}: {told}", output.status);
    String::from_utf8_lossy(&output.stdout).into_owned()
}

fn printed(answer: [u64; 6]) -> String {
    answer.map(|number| number.to_string()).join(" ") + "\n"
}

#[test]
fn the_judge_in_c_equals_the_oracle() {
    let room = Room::new("judge");
    for case in JudgeCases::new(41, 300) {
        let files = [&case.left[..], &case.right, &case.certificate];
        let expected = oracle::judge(files[0], files[1], files[2]);
        assert_eq!(room.run(&room.put(files)), printed(expected));
    }
}

/// It enquires first. Where a certificate can be made, it sets aside as many bytes as this
/// has, commits with them and the slip, and writes them to the file; otherwise it sets none
/// aside and writes no file.
#[test]
fn the_maker_in_c_equals_the_oracle() {
    let room = Room::telling("make");
    let path = room.path("certificate");
    let mut seen = BTreeSet::new();
    for case in MakeCases::new(45, 1_000) {
        let files = [&case.left[..], &case.right, &case.relation];
        let (enquired, slip) = oracle::enquire(files[0], files[1], files[2]);
        let words = [room.put(files), vec![path.clone()]].concat();
        let output = room.call(&words);
        assert_eq!(printed_by(&output), printed(enquired));
        let (mut certificate, mut told) = (None, String::new());
        if enquired[0] == 0 {
            let length = enquired[2] as usize;
            let mut made = vec![0; length];
            oracle::make(files[0], files[1], files[2], &mut made);
            certificate = Some(made);
            let slip = slip.map(|number| number.to_string()).join(" ");
            told = format!("set aside {length}\nslip {slip}, output {length}\n");
        }
        assert_eq!(String::from_utf8_lossy(&output.stderr), told);
        assert_eq!(room.take(&path), certificate);
        seen.insert(enquired[0]);
    }
    let refusals = (1..=9).chain([15, 16, 17, 20, 22, 23, 24, 28, 30]);
    assert!(seen.into_iter().eq([0].into_iter().chain(refusals)));
}

/// Both makers have an output with room for every certificate, so 21 is never the answer.
#[test]
fn both_makers_of_the_header_equal_the_oracle() {
    let room = Room::compiled(&[MAKERS], &[]);
    let paths = ["made", "made_by_sets"].map(|name| room.path(name));
    for case in MakeCases::new(46, 500) {
        let files = [&case.left[..], &case.right, &case.relation];
        let mut output = vec![0; 41_483];
        let expected = oracle::make(files[0], files[1], files[2], &mut output);
        let words = [room.put(files), paths.to_vec()].concat();
        assert_eq!(room.run(&words), printed(expected).repeat(2));
        let certificate = (expected[0] == 0).then(|| output[..expected[2] as usize].to_vec());
        for path in &paths {
            assert_eq!(room.take(path), certificate);
        }
    }
}

/// The words for marks, starts and steps: lists with commas.
fn lists(case: &WriteCase) -> [String; 3] {
    let marks: Vec<String> = case.marks.iter().map(u32::to_string).collect();
    let states = (0..64).filter(|&state| case.starts >> state & 1 == 1);
    let starts: Vec<String> = states.map(|state| state.to_string()).collect();
    let step = |step: &u16| format!("{}-{}", step / 256, step % 256);
    let steps: Vec<String> = case.steps.iter().map(step).collect();
    [marks, starts, steps].map(|list| list.join(","))
}

/// Its output has room for every table, so 21 is never the answer.
#[test]
fn the_writer_in_c_equals_the_oracle() {
    let room = Room::new("write");
    let path = room.path("table");
    let mut written = 0;
    for case in WriteCases::new(44, 500) {
        let lists = lists(&case);
        // The system has a limit for a word.
        if lists.iter().any(|list| list.len() > 100_000) {
            continue;
        }
        let mut output = vec![0; 784];
        let expected = oracle::write(&case.marks, case.starts, &case.steps, &mut output);
        let words = [vec![path.clone()], lists.to_vec()].concat();
        assert_eq!(room.run(&words), printed(expected));
        let table = (expected[0] == 0).then(|| output[..expected[2] as usize].to_vec());
        assert_eq!(room.take(&path), table);
        written += usize::from(expected[0] == 0);
    }
    assert!(written >= 200, "{written}");
}

/// Words that are no lists of such numbers are told apart, and no file is written.
#[test]
fn the_writer_in_c_tells_wrong_words() {
    let room = Room::new("write");
    let path = room.path("table");
    let call = |words: &[&str]| {
        let words = [&[&path[..]], words].concat();
        let words: Vec<String> = words.into_iter().map(String::from).collect();
        let output = room.call(&words);
        let told = String::from_utf8_lossy(&output.stderr).into_owned();
        (output.status.code(), told, room.take(&path).is_some())
    };
    let good = ["4294967295,0", "0,1", "1-0,0-1"];
    assert_eq!(call(&good), (Some(0), String::new(), true));
    for (place, expected, wrong) in [
        (
            0,
            "a mark is a number to 4294967295, and a comma stands between two marks\n",
            &["x", "1,", ",1", "1,,2", "-1", "+1", " 1", "1 ", "1;2", "0x1", "4294967296"][..],
        ),
        (
            1,
            "a start is a number to 63, and a comma stands between two starts\n",
            &["x", "0,", "64", "-1", "0-1", "18446744073709551616"],
        ),
        (
            2,
            "a step is two numbers to 255 with - between them, and a comma stands between two steps\n",
            &["x", "1", "1-", "-1", "0-1-0", "0--1", "0,1", "0-1,", "256-0", "0-256", "0 - 1"],
        ),
    ] {
        for word in wrong {
            let mut words = good;
            words[place] = word;
            let refused = (Some(2), expected.to_string(), false);
            assert_eq!(call(&words), refused, "{word}");
        }
    }
    let usage = "usage: write FILE MARK,MARK.. START,START.. FROM-TO,FROM-TO..\n";
    let refused = (Some(2), usage.to_string(), false);
    assert_eq!(call(&good[..2]), refused);
}

/// What the example for the follower prints for this run.
fn run_beside_its_match(room: &Room, given: &Given) -> String {
    let mut words = room.put([given.left, given.right, given.certificate]);
    words.extend([given.side.to_string(), given.start.to_string()]);
    words.extend(given.path.iter().map(|state| state.to_string()));
    room.run(&words)
}

/// A line for each block, the states given in columns of one width.
fn printed_blocks(blocks: &[Block]) -> String {
    let columns = |states: &[usize]| -> String {
        let columns = states.iter().map(|state| format!("{state:3}"));
        columns.collect()
    };
    let widest = blocks.iter().map(|block| 3 * block.given.len()).max();
    let widest = widest.expect("there is a block");
    let line = |(number, block): (usize, &Block)| {
        let (given, written) = (columns(&block.given), columns(&block.written));
        format!("block {number:3}:{given:widest$}   {written}\n")
    };
    blocks.iter().enumerate().map(line).collect()
}

/// Its outputs have room for every run, so 27 is never the answer.
#[test]
fn the_follower_in_c_equals_the_oracle() {
    let room = Room::new("follow");
    for case in FollowCases::new(43, 500) {
        let given = Given::of(&case);
        let (mut states, mut blocks) = ([0; 49_152], [0; 512]);
        let answer = given.ask(oracle::follow, &mut states, &mut blocks);
        let expected = if answer[0] == 0 {
            let matching = given.matching(answer[2], &states, &blocks);
            printed_blocks(&matching.expect("the oracle's path matches"))
        } else {
            printed(answer)
        };
        assert_eq!(run_beside_its_match(&room, &given), expected);
    }
}

/// The folder of the repository.
fn repository() -> PathBuf {
    Path::new(env!("CARGO_MANIFEST_DIR")).join("../..")
}

fn read(document: &str) -> String {
    fs::read_to_string(repository().join(document)).expect("the document is there")
}

/// The example prints this run as it stands in the document.
fn stands_in(document: &str, given: &Given) {
    let document = read(document);
    let found = run_beside_its_match(&Room::new("follow"), given);
    let indented: String = found.lines().map(|line| format!("    {line}\n")).collect();
    assert!(document.contains(&indented), "{indented}");
}

/// The bytes of a file in hexadecimal, with comments.
fn from_hex(name: &str) -> Vec<u8> {
    let file = repository().join("examples").join(name);
    let text = fs::read_to_string(file).expect("the file is there");
    let codes = text.lines().filter_map(|line| line.split('#').next());
    let byte = |code| u8::from_str_radix(code, 16).expect("two digits");
    codes.flat_map(str::split_whitespace).map(byte).collect()
}

#[test]
fn the_run_of_the_readme() {
    let given = Given {
        left: &from_hex("P.hex"),
        right: &from_hex("Q.hex"),
        certificate: &from_hex("K.hex"),
        side: 0,
        start: 0,
        path: &[0, 1, 0],
    };
    stands_in("README.md", &given);
}

/// The ring of 2 and the ring of 4.
fn ring() -> text::Example {
    let ring = repository().join("examples/systems/ring.relation");
    text::read(&ring).expect("the files can be read")
}

#[test]
fn the_run_of_the_examples_readme() {
    let ring = ring();
    let mut certificate = vec![0; ring.make[2] as usize];
    let made = stutter::make(&ring.left, &ring.right, &ring.relation, &mut certificate);
    assert_eq!(made, ring.make);
    let given = Given {
        left: &ring.left,
        right: &ring.right,
        certificate: &certificate,
        side: 0,
        start: 0,
        path: &[0, 1, 2, 4, 5, 6, 7, 1],
    };
    stands_in("examples/README.md", &given);
}

#[test]
fn the_table_of_the_examples_readme() {
    let room = Room::new("write");
    let lists = ["0,1", "0", "1-0,0-1"];
    let words = [vec![room.path("P")], lists.map(String::from).to_vec()].concat();
    let found = room.run(&words);
    let shown = format!(
        "    $ target/write target/P {}\n    {found}",
        lists.join(" ")
    );
    assert!(read("examples/README.md").contains(&shown), "{shown}");
}

/// The first of the commands that the documents show.
const MAKE_EXAMPLES: &str = "make examples\n";

/// The commands of a document, indented by four spaces, from the first one on.
fn commands(document: &str) -> String {
    let document = read(document);
    let lines = document.lines();
    let shown = lines.skip_while(|line| line.trim() != MAKE_EXAMPLES.trim());
    let commands = shown.map_while(|line| line.strip_prefix("    "));
    let commands: String = commands.map(|command| format!("{command}\n")).collect();
    assert!(!commands.is_empty(), "no line is `make examples`");
    commands
}

/// The commands that `make` has for this target.
fn made_by(target: &str) -> String {
    let output = Command::new("make")
        .args(["--dry-run", "--no-print-directory", target])
        .current_dir(repository())
        .env_remove("MAKEFLAGS")
        .output();
    printed_by(&output.expect("make starts"))
}

/// What `make examples` does, but for the library, which is there.
fn make_examples() -> String {
    let commands = made_by("examples");
    let examples = commands.strip_prefix(&made_by("library"));
    examples.expect("the library comes first").to_string()
}

/// The commands make and judge the ring's certificate. They are run with a folder of their
/// own in place of `target`.
fn are_run(document: &str) {
    let room = Room::empty();
    let library = repository().join("target/staticlib");
    symlink(library, room.0.join("staticlib")).expect("the link is made");
    let commands = commands(document).replacen(MAKE_EXAMPLES, &make_examples(), 1);
    let output = Command::new("sh")
        .args(["-e", "-c", &commands.replace("target/", &room.path(""))])
        .current_dir(repository())
        .output();
    let found = printed_by(&output.expect("the shell starts"));
    let ring = ring();
    let judge = ring.judge.expect("the ring is accepted");
    assert_eq!(found, printed(ring.make) + &printed(judge), "{document}");
}

#[test]
fn the_commands_of_the_readme() {
    are_run("README.md");
}

#[test]
fn the_commands_of_the_examples_readme() {
    are_run("examples/README.md");
}
