//! Tables and relations in a readable form, as under `examples/systems`, where its
//! README says what each line means. Tables without keys are written by the proved writer,
//! which writes no others; those with keys are laid out here.

use std::fs;
use std::path::{Path, PathBuf};
use stutter::{Answer, TABLE_MOST};

/// A relation file: the bytes of two tables and of the relation, and what is answered.
pub struct Example {
    pub left: Vec<u8>,
    pub right: Vec<u8>,
    pub relation: Vec<u8>,
    /// What the maker answers.
    pub make: Answer,
    /// What the judge answers to the certificate, where one is made.
    pub judge: Option<Answer>,
}

/// A table whose states, labels and keys have names.
#[derive(Default)]
struct Named {
    file: PathBuf,
    states: Vec<String>,
    labels: Vec<(String, u32)>,
    /// The keys that have names. Where there is one, it is a table with keys.
    keys: Vec<(String, u8)>,
    marks: Vec<u32>,
    starts: Vec<usize>,
    steps: Vec<Step>,
}

/// Steps are compared by from, to, key.
#[derive(Clone, Copy, PartialEq, Eq, PartialOrd, Ord)]
struct Step {
    from: usize,
    to: usize,
    /// 0 where the step is silent.
    key: u8,
}

/// A line that is not empty: where it stands, and its words.
struct Line {
    place: String,
    words: Vec<String>,
}

/// Reads a relation file and the two tables that it names.
pub fn read(path: &Path) -> Result<Example, String> {
    let (mut left, mut right) = (None, None);
    let (mut make, mut judge) = (None, None);
    let mut related = Vec::new();
    for line in lines(path)? {
        match line.words().as_slice() {
            ["left", file] => left = Some(read_table(&path.with_file_name(file))?),
            ["right", file] => right = Some(read_table(&path.with_file_name(file))?),
            ["make", numbers @ ..] => make = Some(line.answer(numbers)?),
            ["judge", numbers @ ..] => judge = Some(line.answer(numbers)?),
            ["related", ..] => related.push(line),
            _ => return line.fail("is no line of a relation"),
        }
    }
    let missing = |what| format!("{}: it has no line '{what}'", path.display());
    let left = left.ok_or_else(|| missing("left"))?;
    let right = right.ok_or_else(|| missing("right"))?;
    let (left_bytes, right_bytes) = (left.written()?, right.written()?);
    let related = relation(&related, &left, &right)?;
    Ok(Example {
        left: left_bytes,
        right: right_bytes,
        relation: related.into_iter().flat_map(u64::to_be_bytes).collect(),
        make: make.ok_or_else(|| missing("make"))?,
        judge,
    })
}

/// For each left state the word of the right states that it is related to. Both tables have
/// at most 64 states.
fn relation(lines: &[Line], left: &Named, right: &Named) -> Result<Vec<u64>, String> {
    let mut related = vec![0; left.states.len()];
    for line in lines {
        match line.words().as_slice() {
            ["related", "equal", "labels"] => {
                for (row, own) in related.iter_mut().zip(&left.marks) {
                    let others = 0..right.marks.len();
                    *row |= word(others.filter(|&other| right.marks[other] == *own));
                }
            }
            ["related", own, "~", others @ ..] => {
                let own = line.state(left, own)?;
                for other in others {
                    related[own] |= word([line.state(right, other)?]);
                }
            }
            _ => return line.fail("relates no states"),
        }
    }
    Ok(related)
}

fn read_table(path: &Path) -> Result<Named, String> {
    let mut table = Named::default();
    for line in lines(path)? {
        match line.words().as_slice() {
            ["with", file] if table.labels.is_empty() => {
                table = read_table(&path.with_file_name(file))?;
            }
            ["label", number, name] => {
                let number = line.number(number)?;
                table.labels.push((name.to_string(), number));
            }
            ["state", name, label] => {
                let Some((_, mark)) = table.labels.iter().find(|(name, _)| name == label) else {
                    return line.fail("has a label that no line before it names");
                };
                if table.states.iter().any(|known| known == name) {
                    return line.fail("names a state twice");
                }
                table.marks.push(*mark);
                table.states.push(name.to_string());
            }
            ["start", name] => {
                let start = line.state(&table, name)?;
                if table.starts.contains(&start) {
                    return line.fail("names a start twice");
                }
                table.starts.push(start);
            }
            ["key", number, name] => {
                let key = line.key_number(number)?;
                let known = |(known, number): &(String, u8)| known == name || *number == key;
                if table.keys.iter().any(known) {
                    return line.fail("names a key twice");
                }
                table.keys.push((name.to_string(), key));
            }
            ["step", from, "->", ends @ ..] => line.add_steps(&mut table, from, 0, ends)?,
            ["step", from, key, "->", ends @ ..] => {
                let Some(&(_, key)) = table.keys.iter().find(|(name, _)| name == key) else {
                    return line.fail("has a key that no line before it names");
                };
                line.add_steps(&mut table, from, key, ends)?;
            }
            _ => return line.fail("is no line of a table"),
        }
    }
    table.file = path.to_path_buf();
    Ok(table)
}

/// The word with the bits of these states. It has none for states from 64 on.
fn word(states: impl IntoIterator<Item = usize>) -> u64 {
    let bit = |state: usize| 1u64.checked_shl(state as u32).unwrap_or(0);
    states.into_iter().map(bit).fold(0, |word, bit| word | bit)
}

impl Named {
    /// The bytes of the table.
    fn written(&self) -> Result<Vec<u8>, String> {
        let written = if self.keys.is_empty() {
            self.written_without_keys()
        } else {
            self.laid_out()
        };
        written.map_err(|why| format!("{}: {why}", self.file.display()))
    }

    /// The bytes of a table without keys, by the proved writer. A state above 63 has no bit and
    /// one above 255 no byte, but with so many states the writer looks no further.
    fn written_without_keys(&self) -> Result<Vec<u8>, String> {
        let step = |step: &Step| (step.from * 256 + step.to) as u16;
        let steps: Vec<u16> = self.steps.iter().map(step).collect();
        let mut output = vec![0; TABLE_MOST];
        let answer = stutter::write(&self.marks, self.start_word(), &steps, &mut output);
        match answer[0] {
            0 => {
                output.truncate(answer[2] as usize);
                Ok(output)
            }
            // Names are those of states and the output is long enough, so it has no other.
            4 => Err(self.wrong_states()),
            28 => Err(self.no_start()),
            6 => Err(self.too_many_steps()),
            9 => Err(self.step_twice(answer[2] as usize)),
            _ => Err(format!("the writer answers {answer:?}")),
        }
    }

    /// The bytes of a table with keys: "TPK", version 1, then as in version 4 of the others, but
    /// steps of three bytes. What is wrong is looked for in the writer's order.
    fn laid_out(&self) -> Result<Vec<u8>, String> {
        let (n, m) = (self.states.len(), self.steps.len());
        if !(1..=64).contains(&n) {
            return Err(self.wrong_states());
        }
        if self.starts.is_empty() {
            return Err(self.no_start());
        }
        if m > 256 {
            return Err(self.too_many_steps());
        }
        if let Some(j) = (0..m).find(|&j| self.steps[..j].contains(&self.steps[j])) {
            return Err(self.step_twice(j));
        }
        let mut rising = self.steps.clone();
        rising.sort();
        let mut bytes = b"TPK\0\x01".to_vec();
        bytes.push(n as u8);
        bytes.extend(self.start_word().to_be_bytes());
        bytes.extend((m as u16).to_be_bytes());
        bytes.extend(self.marks.iter().flat_map(|mark| mark.to_be_bytes()));
        let step = |step: &Step| [step.from as u8, step.to as u8, step.key];
        bytes.extend(rising.iter().flat_map(step));
        Ok(bytes)
    }

    fn start_word(&self) -> u64 {
        word(self.starts.iter().copied())
    }

    fn wrong_states(&self) -> String {
        format!("it has {} states; a table has 1 to 64", self.states.len())
    }

    fn no_start(&self) -> String {
        "it has no line 'start'".to_string()
    }

    fn too_many_steps(&self) -> String {
        format!("it has {} steps; a table has at most 256", self.steps.len())
    }

    fn step_twice(&self, j: usize) -> String {
        let Step { from, to, key } = self.steps[j];
        let [from, to] = [from, to].map(|state| &self.states[state]);
        let name = self.keys.iter().find(|(_, number)| *number == key);
        let key = name.map_or(String::new(), |(name, _)| format!("{name} "));
        format!("the step {from} {key}-> {to} stands twice")
    }
}

/// The lines of a file without comments, which begin with '#', and without empty
/// lines.
fn lines(path: &Path) -> Result<Vec<Line>, String> {
    let text = fs::read_to_string(path).map_err(|why| format!("{}: {why}", path.display()))?;
    let line = |(i, line): (usize, &str)| Line {
        place: format!("{}:{}", path.display(), i + 1),
        words: (line.split('#').next().unwrap_or(""))
            .split_whitespace()
            .map(String::from)
            .collect(),
    };
    let lines = text.lines().enumerate().map(line);
    Ok(lines.filter(|line| !line.words.is_empty()).collect())
}

impl Line {
    fn words(&self) -> Vec<&str> {
        self.words.iter().map(String::as_str).collect()
    }

    fn fail<T>(&self, why: &str) -> Result<T, String> {
        let words = self.words.join(" ");
        Err(format!("{}: '{words}' {why}", self.place))
    }

    /// The number of the state with this name.
    fn state(&self, table: &Named, name: &str) -> Result<usize, String> {
        match table.states.iter().position(|state| state == name) {
            Some(state) => Ok(state),
            None => self.fail("names a state that the table does not have"),
        }
    }

    /// Adds a step with this key to each of these ends.
    fn add_steps(
        &self,
        table: &mut Named,
        from: &str,
        key: u8,
        ends: &[&str],
    ) -> Result<(), String> {
        let from = self.state(table, from)?;
        for to in ends {
            let to = self.state(table, to)?;
            table.steps.push(Step { from, to, key });
        }
        Ok(())
    }

    /// The number of a key. That of a silent step is none.
    fn key_number(&self, word: &str) -> Result<u8, String> {
        match self.number::<u64>(word)? {
            key @ 1..=255 => Ok(key as u8),
            _ => self.fail("has a key that is not 1 to 255"),
        }
    }

    fn number<T: std::str::FromStr>(&self, word: &str) -> Result<T, String> {
        match word.parse() {
            Ok(number) => Ok(number),
            Err(_) => self.fail("has a word where a number should be"),
        }
    }

    fn answer(&self, words: &[&str]) -> Result<Answer, String> {
        let mut answer = [0; 6];
        if words.len() != answer.len() {
            return self.fail("has not six numbers");
        }
        for (number, word) in answer.iter_mut().zip(words) {
            *number = self.number(word)?;
        }
        Ok(answer)
    }
}

#[cfg(test)]
mod tests {
    use super::*;

    /// Reads a relation file with a left table and a right table of these lines.
    fn read_lines(table: &str, relation: &str) -> Result<Example, String> {
        static NEXT: std::sync::atomic::AtomicUsize = std::sync::atomic::AtomicUsize::new(0);
        let number = NEXT.fetch_add(1, std::sync::atomic::Ordering::Relaxed);
        let name = format!("stutter-text-{}-{number}", std::process::id());
        let folder = std::env::temp_dir().join(name);
        fs::create_dir_all(&folder).expect("the folder is made");
        fs::write(folder.join("table"), table).expect("the table is written");
        let relation = format!("left table\nright table\n{relation}");
        fs::write(folder.join("relation"), relation).expect("the relation is written");
        let example = read(&folder.join("relation"));
        fs::remove_dir_all(&folder).expect("the folder is removed");
        example
    }

    const TABLE: &str =
        "label 7 seven # a label\n\nlabel 258 other\nstate a seven\nstate b other\n\
                         state c seven\nstart b\nstep a -> b c\nstep c -> a\n";

    /// The table of version 4 with these starts, marks and steps.
    fn table(starts: u8, marks: &[[u8; 4]], steps: &[[u8; 2]]) -> Vec<u8> {
        let header = [b"TPT\0\x04", &[marks.len() as u8][..]].concat();
        let starts = [0, 0, 0, 0, 0, 0, 0, starts];
        let m = [0, steps.len() as u8];
        let parts = [&header[..], &starts, &m, &marks.concat(), &steps.concat()];
        parts.concat()
    }

    /// The steps of c stand before those of a, and those of a fall.
    #[test]
    fn the_files_are_as_written() {
        let lines = "label 7 seven\nlabel 258 other\nstate a seven\nstate b other\n\
                     state c seven\nstart b\nstep c -> a\nstep a -> c b\n";
        let relation = "related a ~ a b\nrelated c ~ c\nmake 16 2 0 1 0 0\n";
        let marks = [[0, 0, 0, 7], [0, 0, 1, 2], [0, 0, 0, 7]];
        let expected = table(0b010, &marks, &[[0, 1], [0, 2], [2, 0]]);
        for lines in [lines, TABLE] {
            let example = read_lines(lines, relation).expect("the files can be read");
            assert_eq!([&example.left, &example.right], [&expected; 2]);
            let rows = [3u64, 0, 4].map(u64::to_be_bytes).concat();
            assert_eq!(example.relation, rows);
            let made = stutter::make(&expected, &expected, &rows, &mut [0; 71]);
            assert_eq!(example.make, made);
            assert_eq!(example.judge, None);
        }
    }

    #[test]
    fn several_starts_and_large_marks_are_written() {
        let lines = "label 65536 wide\nlabel 4294967295 widest\nstate d wide\nstate e widest\n\
                     start e\nstart a\nstep b -> c\n";
        let lines = format!("{TABLE}{lines}");
        let example = read_lines(&lines, "related equal labels\nmake 0 0 0 0 0 0\n");
        let left = example.expect("the files can be read").left;
        let marks = [
            [0, 0, 0, 7],
            [0, 0, 1, 2],
            [0, 0, 0, 7],
            [0, 1, 0, 0],
            [255, 255, 255, 255],
        ];
        let steps = [[0, 1], [0, 2], [1, 2], [2, 0]];
        assert_eq!(left, table(0b10011, &marks, &steps));
    }

    /// The table with keys with these starts, marks and steps.
    fn keyed_table(starts: u8, marks: &[[u8; 4]], steps: &[[u8; 3]]) -> Vec<u8> {
        let header = [b"TPK\0\x01", &[marks.len() as u8][..]].concat();
        let starts = [0, 0, 0, 0, 0, 0, 0, starts];
        let m = [0, steps.len() as u8];
        let parts = [&header[..], &starts, &m, &marks.concat(), &steps.concat()];
        parts.concat()
    }

    /// A line `key` makes it a table with keys. The steps rise by from, to, key, and those
    /// without a key are silent.
    #[test]
    fn steps_with_keys_are_laid_out() {
        let lines = format!("key 255 stop\n{TABLE}key 7 go\nstep a stop -> c b\nstep a go -> c\n");
        let read = |lines: &str| {
            let example = read_lines(lines, "related equal labels\nmake 0 0 0 0 0 0\n");
            example.expect("the files can be read")
        };
        let marks = [[0, 0, 0, 7], [0, 0, 1, 2], [0, 0, 0, 7]];
        let steps = [
            [0, 1, 0],
            [0, 1, 255],
            [0, 2, 0],
            [0, 2, 7],
            [0, 2, 255],
            [2, 0, 0],
        ];
        let expected = keyed_table(0b010, &marks, &steps);
        assert_eq!(expected.len(), 16 + 4 * 3 + 3 * 6);
        assert_eq!(read(&lines).left, expected);
        assert_eq!(read(&lines).right, expected);
        let silent = [[0, 1, 0], [0, 2, 0], [2, 0, 0]];
        let unused = read(&format!("key 1 go\n{TABLE}")).left;
        assert_eq!(unused, keyed_table(0b010, &marks, &silent));
    }

    #[test]
    fn equal_labels_are_related() {
        let example = read_lines(TABLE, "related equal labels\nmake 0 0 0 0 0 0\n");
        let relation = example.expect("the files can be read").relation;
        let rows = [0b101u64, 0b010, 0b101].map(u64::to_be_bytes);
        assert_eq!(relation, rows.concat());
    }

    /// What the writer refuses is told by the table's file and in words.
    #[test]
    fn a_table_that_is_not_written_is_named() {
        let states = |n: usize| {
            let states = (0..n).map(|s| format!("state {s} seven\n"));
            let start = if n > 0 {
                format!("start {}\n", n - 1)
            } else {
                String::new()
            };
            format!("label 7 seven\n{}{start}", states.collect::<String>())
        };
        // All steps of so many states.
        let complete = |n: usize| {
            let ends: Vec<String> = (0..n).map(|s| s.to_string()).collect();
            let steps = ends
                .iter()
                .map(|from| format!("step {from} -> {}\n", ends.join(" ")));
            states(n) + &steps.collect::<String>()
        };
        let told = |lines: String| read_lines(&lines, "make 0 0 0 0 0 0\n").err();
        let keyed = |lines: String| format!("key 1 go\nkey 2 stop\n{lines}");
        for (lines, expected) in [
            (
                keyed(states(0)),
                "/table: it has 0 states; a table has 1 to 64",
            ),
            (
                keyed(states(65)),
                "/table: it has 65 states; a table has 1 to 64",
            ),
            (
                keyed(complete(17)),
                "/table: it has 289 steps; a table has at most 256",
            ),
            (
                keyed(complete(16) + "step 0 go -> 0\n"),
                "/table: it has 257 steps; a table has at most 256",
            ),
            (
                keyed(format!("{TABLE}step c -> b a\n")),
                "/table: the step c -> a stands twice",
            ),
            (
                keyed(format!("{TABLE}step c stop -> b a\nstep c stop -> b\n")),
                "/table: the step c stop -> b stands twice",
            ),
            (
                keyed(TABLE.replace("start b", "")),
                "/table: it has no line 'start'",
            ),
            (states(0), "/table: it has 0 states; a table has 1 to 64"),
            (states(65), "/table: it has 65 states; a table has 1 to 64"),
            (
                states(300),
                "/table: it has 300 states; a table has 1 to 64",
            ),
            (
                complete(17),
                "/table: it has 289 steps; a table has at most 256",
            ),
            (
                format!("{TABLE}step c -> b a\n"),
                "/table: the step c -> a stands twice",
            ),
            (
                TABLE.replace("start b", ""),
                "/table: it has no line 'start'",
            ),
        ] {
            let found = told(lines).expect("the table is not written");
            assert!(found.ends_with(expected), "{found}");
        }
        assert_eq!(told(states(64)), None);
        assert_eq!(told(complete(16)), None);
        assert_eq!(told(keyed(states(64))), None);
        assert_eq!(told(keyed(complete(16))), None);
        let two_keys = format!("{TABLE}step c stop -> a\nstep c go -> a\n");
        assert_eq!(told(keyed(two_keys)), None);
    }

    #[test]
    fn a_wrong_line_is_named() {
        let make = "make 0 0 0 0 0 0\n";
        let table = |line: &str| read_lines(&format!("{TABLE}{line}\n"), make).err();
        let relation = |line: &str| read_lines(TABLE, &format!("{line}\n{make}")).err();
        for (found, expected) in [
            (
                table("state a seven"),
                "table:10: 'state a seven' names a state twice",
            ),
            (table("start b"), "table:10: 'start b' names a start twice"),
            (
                table("start d"),
                "names a state that the table does not have",
            ),
            (table("state d new"), "that no line before it names"),
            (
                table("step a -> d"),
                "names a state that the table does not have",
            ),
            (table("step a b"), "is no line of a table"),
            (
                table("step a go -> b"),
                "table:10: 'step a go -> b' has a key that no line before it names",
            ),
            (table("key 0 go"), "has a key that is not 1 to 255"),
            (table("key 256 go"), "has a key that is not 1 to 255"),
            (table("key x go"), "has a word where a number should be"),
            (table("key 1"), "is no line of a table"),
            (
                table("key 1 go\nkey 2 go"),
                "table:11: 'key 2 go' names a key twice",
            ),
            (table("key 1 go\nkey 1 stop"), "names a key twice"),
            (
                table("key 1 go\nstep a go -> d"),
                "names a state that the table does not have",
            ),
            (table("key 1 go\nstep a go b"), "is no line of a table"),
            (table("label x y"), "has a word where a number should be"),
            (table("label 4294967296 y"), "where a number should be"),
            (
                relation("related d ~ a"),
                "relation:3: 'related d ~ a' names a state",
            ),
            (relation("related a b"), "relates no states"),
            (relation("judge 0"), "has not six numbers"),
            (relation("left no-such-file"), "no-such-file: "),
            (read_lines(TABLE, "").err(), "it has no line 'make'"),
        ] {
            let found = found.expect("the files cannot be read");
            assert!(found.contains(expected), "{found}");
        }
    }
}
