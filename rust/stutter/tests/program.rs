//! The built programs beside the oracle's, and how they behave as processes.

use compare::Report;
use inputs::{any_system, joined, save_in, Forms, Random};
use oracle::Form;
use std::fs::File;
use std::io::{ErrorKind, Read, Seek, Write};
use std::path::{Path, PathBuf};
use std::process::{Child, ChildStdin, Command, Stdio};
use std::sync::mpsc;
use std::thread;
use std::time::Duration;

/// A built program and what is expected of it.
struct Program {
    /// Its crate, and its file under `target/bin`.
    name: &'static str,
    oracle: fn(&[u8]) -> String,
    /// Runs it beside the oracle's on many inputs.
    compared: fn(&Program) -> Report,
    /// What it prints for P, Q and K.
    example: &'static str,
    /// How many lines it prints for the fullest input.
    most_lines: usize,
}

static PROGRAMS: [Program; 2] = [
    Program {
        name: "judge",
        oracle: oracle::program,
        compared: |program| compare::program(18_000, 34, |input| program.run(input)),
        example: "0 0 3 4 1 1\n",
        most_lines: 1,
    },
    Program {
        name: "listing",
        oracle: oracle::listing_program,
        compared: |program| compare::listing(18_000, 32, |input| program.run(input)),
        example: "0 0 0 0 3 1\n1 0 0 0 2 0\n0 0 1 0 1 2\n\
                  1 0 1 1 1 1\n0 1 2 1 1 0\n1 1 2 2 1 0\n",
        most_lines: 32_768,
    },
];

/// The most bytes that three pieces and their lengths have.
const MOST: usize = 3 * (2 + 65_535);

/// Where the repository is.
fn repository() -> PathBuf {
    Path::new(env!("CARGO_MANIFEST_DIR")).join("../..")
}

impl Program {
    /// Where `make` puts the built program.
    fn path(&self) -> PathBuf {
        let name = self.name;
        let path = repository().join("target/bin").join(name);
        assert!(
            path.is_file(),
            "target/bin/{name} is missing. Run `make programs` in the repository's folder."
        );
        path
    }

    fn command(&self) -> Command {
        Command::new(self.path())
    }

    /// What the program prints for this input.
    fn run(&self, input: &[u8]) -> String {
        run(&mut self.command(), input)
    }
}

fn spawn(command: &mut Command, input: Stdio) -> Child {
    command
        .stdin(input)
        .stdout(Stdio::piped())
        .spawn()
        .expect("the program starts")
}

/// The program, and the pipe for its input.
fn spawn_with_pipe(command: &mut Command) -> (Child, ChildStdin) {
    let mut child = spawn(command, Stdio::piped());
    let pipe = child.stdin.take().expect("the input is a pipe");
    (child, pipe)
}

/// Writes, where the program may already have ended without reading all.
fn send(pipe: &mut ChildStdin, bytes: &[u8]) {
    if let Err(error) = pipe.write_all(bytes).and_then(|()| pipe.flush()) {
        assert_eq!(error.kind(), ErrorKind::BrokenPipe, "{error}");
    }
}

fn printed(child: Child) -> String {
    let output = child.wait_with_output().expect("the program ends");
    assert!(output.status.success(), "{}", output.status);
    String::from_utf8(output.stdout).expect("the program prints text")
}

/// What the command prints for this input. A pipe holds less than the longest input
/// and the longest output, so the one is written while the other is read.
fn run(command: &mut Command, input: &[u8]) -> String {
    let (child, mut pipe) = spawn_with_pipe(command);
    thread::scope(|scope| {
        scope.spawn(move || send(&mut pipe, input));
        printed(child)
    })
}

/// The example with which the judge's program is built: P, Q and K.
fn example() -> Vec<u8> {
    std::fs::read(repository().join("crates/judge/stdin")).expect("the example's input is there")
}

/// P, Q and K, where Q has a start word with the starts 0 and 1, and marks of two and of
/// four bytes.
fn later_examples() -> [Vec<u8>; 2] {
    let input = example();
    let [p, q, k] = oracle::pieces(&input);
    let starts_and_m = [0, 0, 0, 0, 0, 0, 0, 0b11, 0, 3];
    let (marks, wide_marks) = (&q[9..15], [0, 0, 0, 0, 0, 0, 0, 0, 0, 0, 0, 1]);
    [(b"TPT\0\x03\x03", marks), (b"TPT\0\x04\x03", &wide_marks)].map(|(header, marks)| {
        let q = [&header[..], &starts_and_m, marks, &q[15..]].concat();
        joined(&[p.to_vec(), q, k.to_vec()])
    })
}

/// P, Q and K with keys: 0-1 of P and 1-2 of Q have key 1, 1-0 of P and 2-0 of Q key 2, and
/// the pause 0-1 of Q is silent.
fn example_with_keys() -> Vec<u8> {
    let input = example();
    let [_, _, k] = oracle::pieces(&input);
    let start = [0, 0, 0, 0, 0, 0, 0, 1];
    let p = [
        &b"TPK\0\x01\x02"[..],
        &start,
        &[0, 2, 0, 0, 0, 0, 0, 0, 0, 1],
        &[0, 1, 1, 1, 0, 2],
    ];
    let q = [
        &b"TPK\0\x01\x03"[..],
        &start,
        &[0, 3, 0, 0, 0, 0, 0, 0, 0, 0, 0, 0, 0, 1],
        &[0, 1, 0, 1, 2, 1, 2, 0, 2],
    ];
    joined(&[p.concat(), q.concat(), k.to_vec()])
}

/// 64 states, 64 starts and 256 steps a side, every pair related, and keys: the longest
/// tables and the longest certificate.
fn largest_accepted() -> Vec<u8> {
    let input = inputs::all_related_with_keys().with_all_starts().input();
    assert_eq!(input.len(), 3 * 2 + 2 * (16 + 4 * 64 + 3 * 256) + 41_483);
    let starts = &input[2 + 6..2 + 14];
    assert_eq!(starts, [0xff; 8]);
    input
}

/// The same without keys.
fn largest_without_keys() -> Vec<u8> {
    let systems = inputs::all_related().in_all_versions();
    let input = systems[systems.len() - 1].input();
    assert_eq!(input.len(), 3 * 2 + 2 * (16 + 4 * 64 + 2 * 256) + 41_483);
    input
}

/// Three pieces of the same bytes.
fn thrice(piece: &[u8]) -> Vec<u8> {
    joined(&[piece.to_vec(), piece.to_vec(), piece.to_vec()])
}

#[test]
fn the_examples_are_the_documents() {
    for program in &PROGRAMS {
        let others = [example(), example_with_keys()];
        for input in later_examples().into_iter().chain(others) {
            assert_eq!((program.oracle)(&input), program.example);
            assert_eq!(program.run(&input), program.example);
        }
    }
}

#[test]
fn the_programs_equal_the_oracle() {
    thread::scope(|scope| {
        for program in &PROGRAMS {
            scope.spawn(|| (program.compared)(program).require_all());
        }
    });
}

/// Tables of version 3 or 4 and the same with every key 0 get the same lines.
#[test]
fn silent_steps_are_steps_without_keys() {
    let mut random = Random::new(33);
    let mut accepted = 0;
    for _ in 0..200 {
        let system = any_system(&mut random, Forms::Tpt(&[3, 4]));
        let (answer, made) = system.make();
        let certificate = if answer[0] == 0 {
            made
        } else {
            system.certificate_with_any_ranks(&mut random, 3)
        };
        let mut keyed = system.clone();
        save_in(&mut keyed.left, Form::TPK);
        save_in(&mut keyed.right, Form::TPK);
        let inputs = [system, keyed].map(|system| {
            let tables = [system.left_bytes(), system.right_bytes()];
            joined(&[&tables[..], &[certificate.clone()]].concat())
        });
        for program in &PROGRAMS {
            let [without, with] = inputs.each_ref().map(|input| program.run(input));
            assert!(without == with, "{} differs", program.name);
        }
        accepted += usize::from(answer[0] == 0);
    }
    assert!(accepted >= 50, "{accepted}");
}

/// The answer comes while the input is still open, with later bytes or without.
#[test]
fn an_open_input_is_answered() {
    for program in &PROGRAMS {
        for later in [&b""[..], &b"x"[..], &[0; 300]] {
            for mut input in [example(), thrice(&[]), largest_accepted()] {
                let expected = (program.oracle)(&input);
                input.extend(later);

                let (mut child, mut pipe) = spawn_with_pipe(&mut program.command());
                let mut output = child.stdout.take().expect("the output is a pipe");
                let (sender, receiver) = mpsc::channel();
                thread::spawn(move || {
                    let mut text = String::new();
                    output.read_to_string(&mut text).expect("it prints text");
                    let _ = sender.send(text);
                });
                send(&mut pipe, &input);
                let answer = receiver.recv_timeout(Duration::from_secs(60));
                drop(pipe);
                assert!(child.wait().expect("the program ends").success());
                let answer = answer.expect("an answer while the input is open");
                assert!(answer == expected, "{} differs", program.name);
            }
        }
    }
}

/// An input that comes byte by byte is the same input.
#[test]
fn an_input_in_single_bytes_is_answered() {
    let input = example();
    for program in &PROGRAMS {
        let (child, mut pipe) = spawn_with_pipe(&mut program.command());
        for byte in &input {
            send(&mut pipe, &[*byte]);
            thread::sleep(Duration::from_millis(1));
        }
        drop(pipe);
        assert_eq!(printed(child), (program.oracle)(&input));
    }
}

/// "Later bytes are not read": the file's position is after the third piece.
#[test]
fn later_bytes_are_not_read() {
    let path = std::env::temp_dir().join(format!("stutter-input-{}", std::process::id()));
    for program in &PROGRAMS {
        for pieces in [
            example(),
            thrice(&[0x55; 65_535]),
            joined(&[vec![], vec![1, 2], vec![]]),
            largest_accepted(),
        ] {
            let mut input = pieces.clone();
            input.extend([0; 100]);
            std::fs::write(&path, &input).expect("the input is written");
            let mut file = File::open(&path).expect("the input is there");
            let shared = file.try_clone().expect("the position is shared");
            let child = spawn(&mut program.command(), Stdio::from(shared));
            let printed = printed(child);
            assert!(
                printed == (program.oracle)(&input),
                "{} differs",
                program.name
            );
            let position = file.stream_position().expect("a file has a position");
            assert_eq!(position, pieces.len() as u64, "{}", program.name);
        }
    }
    std::fs::remove_file(&path).expect("the input is removed");
}

/// A stack of 1 MiB is enough for the largest inputs.
#[test]
fn a_small_stack_is_enough() {
    let (longest, fullest) = (thrice(&[0xff; 65_535]), largest_accepted());
    let without_keys = largest_without_keys();
    assert_eq!(longest.len(), MOST);
    for program in &PROGRAMS {
        let most_lines = program.most_lines;
        for (input, lines) in [
            (&longest, 1),
            (&fullest, most_lines),
            (&without_keys, most_lines),
        ] {
            let mut shell = Command::new("sh");
            shell
                .arg("-c")
                .arg("ulimit -s 1024 && exec \"$0\"")
                .arg(program.path());
            let printed = run(&mut shell, input);
            assert_eq!(printed.lines().count(), lines, "{}", program.name);
            assert!(
                printed == (program.oracle)(input),
                "{} differs",
                program.name
            );
        }
    }
}
