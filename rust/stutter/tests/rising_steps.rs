//! One table, saved by two engineers who hold its steps in different orders.

mod makers;
mod shared;

use inputs::{any_system, save_in, Forms, Random, System};
use oracle::Form;
use shared::answers;

/// The same system with its steps in another order, both saved in this version.
fn saved_twice(random: &mut Random, system: &System, version: u16) -> [System; 2] {
    let mut systems = [system.clone(), system.clone()];
    for system in &mut systems {
        for table in [&mut system.left, &mut system.right] {
            random.shuffle(&mut table.steps);
            save_in(table, Form::tpt(version));
        }
    }
    systems
}

/// Where steps rise, the files of both are equal, and so are the answers with their step
/// numbers. In version 1 the files differ, and a step has another number.
#[test]
fn where_steps_rise_both_get_the_same_step_numbers() {
    let mut random = Random::new(51);
    let mut told_apart = [0, 0];
    for _ in 0..3_000 {
        let system = any_system(&mut random, Forms::Tpt(&[1]));
        let certificate = system.certificate_with_any_ranks(&mut random, 3);
        let ranks = &certificate[11..];

        for version in [2, 3, 4] {
            let [first, second] = saved_twice(&mut random, &system, version);
            assert_eq!(first.left_bytes(), second.left_bytes());
            assert_eq!(first.right_bytes(), second.right_bytes());
            assert_eq!(answers(&first, ranks), answers(&second, ranks));
        }

        let [first, second] = saved_twice(&mut random, &system, 1);
        let (made, _, judged) = answers(&first, ranks);
        let (made_second, _, judged_second) = answers(&second, ranks);
        let pairs = [(made, made_second), (judged, judged_second)];
        for (told_apart, (first, second)) in told_apart.iter_mut().zip(pairs) {
            let names_a_step = [18, 19, 22].contains(&first[0]);
            if names_a_step && first[..5] == second[..5] && first[5] != second[5] {
                *told_apart += 1;
            }
        }
    }
    // The maker and the judge both had such systems.
    assert!(
        told_apart.iter().all(|&times| times >= 20),
        "{told_apart:?}"
    );
}
