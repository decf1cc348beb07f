//! Times the proved judge, makers, enquiry, commit, follower and writer and the listing program
//! beside Rust versions, and the proved maker by sets beside the reference maker too, on the
//! same inputs in one run. The versions take turns in every round and the medians are
//! compared, so that other load on the machine does not decide. On tables with keys the proved
//! judge, makers, enquiry and commit also take turns with themselves on tables of the same
//! shape without keys.

use inputs::{all_related, long_chains, long_distances, long_waits, Random, System};
use inputs::{all_related_with_keys, long_chains_with_keys, long_distances_with_keys, save_in};
use oracle::{Answer, Form, Slip, Step, Table};
use std::cell::RefCell;
use std::env;
use std::fs::{self, File};
use std::hint::black_box;
use std::io::{self, Read, Write as _};
use std::path::Path;
use std::process::{self, Command, Stdio};
use std::time::{Duration, Instant};

type Judge = fn(&[u8], &[u8], &[u8]) -> Answer;
type Make = fn(&[u8], &[u8], &[u8], &mut [u8]) -> Answer;
type Enquire = fn(&[u8], &[u8], &[u8]) -> (Answer, Slip);
type Commit = fn(&[u8], &[u8], &[u8], Slip, &mut [u8]) -> Answer;
type Follow = fn(&[u8], &[u8], &[u8], u64, u64, &[u8], &mut [u8], &mut [u8]) -> Answer;
type Write = fn(&[u32], u64, &[u16], &mut [u8]) -> Answer;

/// The judges, the proved one first.
const JUDGES: [(&str, Judge); 3] = [
    ("proved", stutter::judge),
    ("plain judge", oracle::judge),
    ("tuned judge", oracle::tuned::judge),
];

/// The makers, the proved one first, which is the reference.
const MAKERS: [(&str, Make); 3] = [
    ("proved", stutter::make),
    ("plain maker of the same method", oracle::make_by_relaxing),
    ("tuned maker of the same method", oracle::tuned_maker::make),
];

/// The makers by sets, the proved one first, and the reference.
const MAKERS_BY_SETS: [(&str, Make); 4] = [
    ("proved", stutter::make_by_sets),
    ("reference maker", stutter::make),
    ("plain maker of the same method", oracle::make_by_sets),
    (
        "tuned maker of the same method",
        oracle::tuned_maker::make_by_sets,
    ),
];

/// The enquiries, the proved one first.
const ENQUIRIES: [(&str, Enquire); 3] = [
    ("proved", |left, right, relation| {
        let (answer, slip) = stutter::enquire(left, right, relation);
        (answer, slip.numbers())
    }),
    (
        "plain enquiry of the same method",
        oracle::enquire_by_relaxing,
    ),
    (
        "tuned enquiry of the same method",
        oracle::tuned_maker::enquire,
    ),
];

/// The commits, the proved one first.
const COMMITS: [(&str, Commit); 3] = [
    ("proved", |left, right, relation, slip, output| {
        stutter::commit_with(left, right, relation, &slip, output)
    }),
    (
        "plain commit of the same method",
        oracle::commit_by_relaxing,
    ),
    (
        "tuned commit of the same method",
        oracle::tuned_maker::commit,
    ),
];

/// The followers, the proved one first.
const FOLLOWERS: [(&str, Follow); 3] = [
    ("proved", stutter::follow),
    ("plain follower", oracle::follow),
    ("tuned follower", oracle::tuned_follow::follow),
];

/// The writers, the proved one first. The plain one has the standard library's sort.
const WRITERS: [(&str, Write); 3] = [
    ("proved", stutter::write),
    ("plain writer", oracle::write),
    ("tuned writer", oracle::tuned_write::write),
];

/// With this word this program is the oracle's lister.
const ORACLE_LISTER: &str = "oracle-lister";

const ROUNDS: usize = 301;

/// How long each version works in a round, where one call does not take longer.
const TURN: Duration = Duration::from_micros(500);

/// What the time of the proved version on a shape without keys is called.
const WITHOUT_KEYS: &str = "proved";

/// One call of each version with the same input, the proved version first.
struct Contest<'a> {
    name: &'static str,
    /// How much a call works through, and of what, for a time of each.
    work: (usize, &'static str),
    calls: Vec<(&'static str, Call<'a>)>,
}

/// Tables and a relation for which there is a certificate.
struct Shape {
    name: &'static str,
    system: System,
    /// The same shape without keys, where this one has keys.
    without_keys: Option<System>,
}

impl Shape {
    fn new(name: &'static str, system: System) -> Shape {
        Shape {
            name,
            system,
            without_keys: None,
        }
    }

    /// A shape with keys, and the same without them in version 4, of which a table with keys
    /// is the sibling: in both the steps rise.
    fn with_keys(name: &'static str, system: System, mut without_keys: System) -> Shape {
        save_in(&mut without_keys.left, Form::tpt(4));
        save_in(&mut without_keys.right, Form::tpt(4));
        assert_eq!(system.layout(), without_keys.layout(), "{name}");
        Shape {
            name,
            system,
            without_keys: Some(without_keys),
        }
    }
}

type Call<'a> = Box<dyn Fn() + 'a>;

fn main() {
    if env::args().nth(1).is_some_and(|word| word == ORACLE_LISTER) {
        return list();
    }
    println!("64 states and 256 steps a side where no size is given, medians of {ROUNDS} rounds");
    let shapes = shapes();
    println!("the judge");
    shapes.iter().for_each(accept);
    accept(&Shape::new(
        "all pairs related, 64 starts a side",
        all_starts(),
    ));
    for (name, system, answer) in [
        ("last start fails", last_start_fails(), [16, 2, 1, 63, 0, 0]),
        ("first check fails", first_fails(), [17, 2, 0, 0, 0, 0]),
        ("last check fails", last_fails(), [18, 2, 1, 63, 63, 255]),
    ] {
        refuse(&Shape::new(name, system), answer);
    }
    println!("the maker");
    shapes.iter().for_each(|shape| make(shape, &MAKERS));
    println!("the maker by sets");
    shapes.iter().for_each(|shape| make(shape, &MAKERS_BY_SETS));
    println!("the enquiry");
    shapes.iter().for_each(enquire);
    println!("the commit");
    shapes.iter().for_each(commit);
    println!("the follower");
    let (ring, path) = (long_waits(), [0, 1].repeat(128));
    let name = "256 states of a table of 2 on a ring of 64";
    follow(name, &ring, &path, (8_192, "states written"));
    let (largest, path) = (all_related(), [0, 1]);
    let name = "2 states, all pairs related";
    follow(name, &largest, &path, obligations(&largest));
    println!("the writer");
    write("256 shuffled steps", 64);
    write("all 256 steps of 16 states, shuffled", 16);
    println!("the listing");
    listing("all pairs related", &all_related());
    listing("distances of 63 steps", &long_distances());
}

/// The shapes of a relation for which a certificate is made, without keys and with four.
fn shapes() -> [Shape; 6] {
    [
        Shape::new("all pairs related", all_related()),
        Shape::new("chains of 63 steps", long_chains()),
        Shape::new("distances of 63 steps", long_distances()),
        Shape::with_keys(
            "all pairs related, four keys",
            all_related_with_keys(),
            all_related(),
        ),
        Shape::with_keys(
            "chains of 63 steps, four keys",
            long_chains_with_keys(),
            long_chains(),
        ),
        Shape::with_keys(
            "distances of 63 steps, four keys",
            long_distances_with_keys(),
            long_distances(),
        ),
    ]
}

/// A call of each version on this shape, and where it has keys of the proved one on the shape
/// without.
fn calls<F: Copy>(
    shape: &Shape,
    versions: &[(&'static str, F)],
    call_on: impl Fn(F, &System) -> Call<'static>,
) -> Vec<(&'static str, Call<'static>)> {
    let on_shape = |&(version, call)| (version, call_on(call, &shape.system));
    let mut calls: Vec<_> = versions.iter().map(on_shape).collect();
    if let Some(without_keys) = &shape.without_keys {
        let (_, proved) = versions[0];
        calls.push((WITHOUT_KEYS, call_on(proved, without_keys)));
    }
    calls
}

/// The judges on this shape with the certificate that is made for it.
fn accept(shape: &Shape) {
    let accepted = |answer: Answer| answer[0] == 0;
    judge(
        shape,
        System::certificate,
        accepted,
        obligations(&shape.system),
    );
}

/// The judges on this shape with ranks of 0, which they refuse with this answer.
fn refuse(shape: &Shape, answer: Answer) {
    let ranks_of_0 = |system: &System| system.certificate_with_any_ranks(&mut Random::new(0), 0);
    let work = match answer[0] {
        16 | 17 => (0, "obligations"),
        _ => obligations(&shape.system),
    };
    judge(shape, ranks_of_0, |refusal| refusal == answer, work);
}

/// The judges on this shape with a certificate, which they answer as expected.
fn judge(
    shape: &Shape,
    certificate: fn(&System) -> Vec<u8>,
    is_expected: impl Fn(Answer) -> bool,
    work: (usize, &'static str),
) {
    let call_on = |judge: Judge, system: &System| {
        let (left, right) = (system.left_bytes(), system.right_bytes());
        let certificate = certificate(system);
        let call = move || {
            let (left, right) = (black_box(&left), black_box(&right));
            black_box(judge(left, right, black_box(&certificate)))
        };
        assert!(is_expected(call()), "{}", shape.name);
        boxed(call)
    };
    report(&Contest {
        name: shape.name,
        work,
        calls: calls(shape, &JUDGES, call_on),
    });
}

/// These makers on this shape, for which a certificate is made.
fn make(shape: &Shape, makers: &[(&'static str, Make)]) {
    make_by(shape, makers, |make, [left, right, relation], output, _| {
        make(left, right, relation, output)
    });
}

/// The commits on this shape, for which a certificate is made, with the enquiry's slip.
fn commit(shape: &Shape) {
    make_by(
        shape,
        &COMMITS,
        |commit, [left, right, relation], output, slip| {
            commit(left, right, relation, black_box(slip), output)
        },
    );
}

/// Whatever makes a certificate for this shape, by how each is called with the enquiry's slip.
fn make_by<F: Copy + 'static>(
    shape: &Shape,
    versions: &[(&'static str, F)],
    make: fn(F, [&[u8]; 3], &mut [u8], Slip) -> Answer,
) {
    let call_on = |version: F, system: &System| {
        let files = files(system);
        let (_, slip) = oracle::enquire(&files[0], &files[1], &files[2]);
        let (answer, certificate) = system.make();
        let call = move |output: &mut [u8]| {
            let files = files.each_ref().map(|file| &black_box(file)[..]);
            black_box(make(version, files, black_box(output), slip))
        };
        let mut output = vec![0xa5; certificate.len()];
        assert_eq!(call(&mut output), answer, "{}", shape.name);
        assert!(output == certificate, "{}", shape.name);
        let output = RefCell::new(output);
        boxed(move || call(&mut output.borrow_mut()))
    };
    report(&Contest {
        name: shape.name,
        work: obligations(&shape.system),
        calls: calls(shape, versions, call_on),
    });
}

/// The enquiries on this shape, for which a certificate can be made.
fn enquire(shape: &Shape) {
    let call_on = |enquire: Enquire, system: &System| {
        let files = files(system);
        let expected = oracle::enquire(&files[0], &files[1], &files[2]);
        assert_eq!(expected.0[0], 0, "{}", shape.name);
        let call = move || {
            let [left, right, relation] = black_box(&files);
            black_box(enquire(left, right, relation))
        };
        assert_eq!(call(), expected, "{}", shape.name);
        boxed(call)
    };
    report(&Contest {
        name: shape.name,
        work: obligations(&shape.system),
        calls: calls(shape, &ENQUIRIES, call_on),
    });
}

/// Both tables and the relation.
fn files(system: &System) -> [Vec<u8>; 3] {
    [
        system.left_bytes(),
        system.right_bytes(),
        system.relation_bytes(),
    ]
}

/// The followers on this run of the left table, which is followed from the right state 0.
fn follow(name: &'static str, system: &System, path: &[u8], work: (usize, &'static str)) {
    let (left, right) = (&system.left_bytes(), &system.right_bytes());
    let certificate = &system.certificate();
    let lent = [vec![0xa5; 49_152], vec![0xa5; 512]];
    let outputs = &RefCell::new(lent.clone());
    let call = |follow: Follow| {
        let (left, right) = (black_box(left), black_box(right));
        let (certificate, path) = (black_box(certificate), black_box(path));
        let [states, blocks] = &mut *outputs.borrow_mut();
        let (states, blocks) = (black_box(states), black_box(blocks));
        black_box(follow(left, right, certificate, 0, 0, path, states, blocks))
    };
    let answer = call(oracle::follow);
    let expected = outputs.replace(lent.clone());
    assert_eq!(answer[0], 0, "{name}");
    for (version, follow) in FOLLOWERS {
        assert_eq!(call(follow), answer, "{name}, {version}");
        assert!(
            outputs.replace(lent.clone()) == expected,
            "{name}, {version}"
        );
    }
    let timed = |(version, follow)| (version, boxed(move || call(follow)));
    report(&Contest {
        name,
        work,
        calls: FOLLOWERS.map(timed).into(),
    });
}

/// The listing program and the oracle's lister on this system, for which a certificate
/// is made. Both are processes, and the start of a process counts for both. They read
/// the same file and print into a pipe, which is read to its end.
fn listing(name: &'static str, system: &System) {
    let program = Path::new(env!("CARGO_MANIFEST_DIR")).join("../../target/bin/listing");
    assert!(
        program.is_file(),
        "target/bin/listing is missing. Run `make programs` in the repository's folder."
    );
    let oracle_lister = env::current_exe().expect("this program has a path");
    let input = env::temp_dir().join(format!("stutter-bench-{}", process::id()));
    fs::write(&input, system.input()).expect("the input is written");
    let call = |program: &Path, words: &[&str]| {
        let output = Command::new(program)
            .args(words)
            .stdin(File::open(&input).expect("the input is there"))
            .stderr(Stdio::inherit())
            .output()
            .expect("the program ends");
        assert!(output.status.success(), "{}", output.status);
        output.stdout
    };
    let proved = || call(&program, &[]);
    let plain = || call(&oracle_lister, &[ORACLE_LISTER]);
    assert!(proved() == plain(), "{name}, the listings differ");
    report(&Contest {
        name,
        work: obligations(system),
        calls: vec![("proved", boxed(proved)), ("oracle's lister", boxed(plain))],
    });
    fs::remove_file(&input).expect("the input is removed");
}

/// The writers on 256 shuffled steps of this many states, at least 16.
fn write(name: &'static str, states: u16) {
    let mut random = Random::new(0);
    let marks: Vec<u32> = (0..states).map(|_| random.word() as u32).collect();
    let starts = u64::MAX >> (64 - states);
    let all = (0..states).flat_map(|from| (0..states).map(move |to| from * 256 + to));
    let mut steps: Vec<u16> = all.collect();
    random.shuffle(&mut steps);
    steps.truncate(256);
    let output = &RefCell::new(vec![0; stutter::TABLE_MOST]);
    let (marks, steps) = (&marks, &steps);
    let call = |write: Write| {
        let (marks, steps) = (black_box(marks), black_box(steps));
        let output = &mut output.borrow_mut()[..];
        black_box(write(marks, black_box(starts), steps, black_box(output)))
    };
    let answer = call(oracle::write);
    let expected = output.replace(vec![0; stutter::TABLE_MOST]);
    assert_eq!(answer[0], 0, "{name}");
    for (version, write) in WRITERS {
        assert_eq!(call(write), answer, "{name}, {version}");
        let written = output.replace(vec![0; stutter::TABLE_MOST]);
        assert!(written == expected, "{name}, {version}");
    }
    let timed = |(version, write)| (version, boxed(move || call(write)));
    report(&Contest {
        name,
        work: (steps.len(), "steps"),
        calls: WRITERS.map(timed).into(),
    });
}

/// What the oracle's lister does as a process.
fn list() {
    let mut input = Vec::new();
    io::stdin()
        .read_to_end(&mut input)
        .expect("the input is read");
    let text = oracle::listing_program(&input);
    io::stdout()
        .write_all(text.as_bytes())
        .expect("the lines are printed");
}

fn boxed<'a, T>(call: impl Fn() -> T + 'a) -> Call<'a> {
    Box::new(move || drop(call()))
}

/// The obligations of all related pairs.
fn obligations(system: &System) -> (usize, &'static str) {
    let steps = |table: &Table, state| table.steps_from(state).len();
    let pairs = system.pairs().into_iter();
    let count = pairs
        .map(|(s, t)| steps(&system.left, s) + steps(&system.right, t))
        .sum();
    (count, "obligations")
}

/// All states of both tables are initial states.
fn all_starts() -> System {
    let systems = all_related().in_all_versions();
    systems.into_iter().last().expect("there is a last version")
}

/// The last initial state of the right table is related to none of the left table's.
fn last_start_fails() -> System {
    let mut system = all_starts();
    for row in &mut system.related {
        row[63] = false;
    }
    system
}

/// The labels of the first pair differ.
fn first_fails() -> System {
    let mut system = all_related();
    system.left.marks[0] = 1;
    system
}

/// The last pair is related to nothing else. Its left state is terminal, and the
/// one step of its right state, the last obligation of all, is not met.
fn last_fails() -> System {
    let step = |j: usize| Step {
        from: j % 63,
        to: (j % 63 + j / 63 + 1) % 63,
        key: 0,
    };
    let mut system = all_related();
    system.left.steps = (0..256).map(step).collect();
    system.right.steps = (0..255).map(step).collect();
    system.right.steps.push(Step {
        from: 63,
        to: 0,
        key: 0,
    });
    for i in 0..63 {
        system.related[i][63] = false;
        system.related[63][i] = false;
    }
    system
}

fn report(contest: &Contest) {
    let rounds = rounds(contest);
    let time = |version: usize| median(rounds.iter().map(|times| times[version]));
    print!("  {}: {:.1} us", contest.name, time(0) / 1e3);
    match contest.work {
        (0, what) => println!(", before any of the {what}"),
        (n, what) => println!(", {:.2} ns for each of {n} {what}", time(0) / n as f64),
    }
    for (i, (version, _)) in contest.calls.iter().enumerate().skip(1) {
        // Of each round, so that a slow round is slow for both.
        let ratio = median(rounds.iter().map(|times| times[0] / times[i]));
        let whose = match *version {
            WITHOUT_KEYS => "its own time without keys".to_string(),
            version => format!("the {version}'s time"),
        };
        println!("    {ratio:.3} of {whose}, {:.1} us", time(i) / 1e3);
    }
}

/// The time of a call in nanoseconds, in every round for each version.
fn rounds(contest: &Contest) -> Vec<Vec<f64>> {
    let counts: Vec<u32> = (contest.calls.iter())
        .map(|(_, call)| {
            let begun = Instant::now();
            let mut count = 0;
            while begun.elapsed() < TURN {
                call();
                count += 1;
            }
            count
        })
        .collect();
    let round = || {
        let turns = contest.calls.iter().zip(&counts);
        turns.map(|((_, call), &count)| {
            let begun = Instant::now();
            for _ in 0..count {
                call();
            }
            begun.elapsed().as_nanos() as f64 / f64::from(count)
        })
    };
    (0..ROUNDS).map(|_| round().collect()).collect()
}

fn median(numbers: impl Iterator<Item = f64>) -> f64 {
    let mut numbers: Vec<f64> = numbers.collect();
    numbers.sort_by(f64::total_cmp);
    numbers[numbers.len() / 2]
}
