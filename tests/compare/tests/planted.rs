//! Each planted error is found, made small, and found again from its text.

use compare::answer::{compared, Difference};
use compare::case::Case;
use compare::planted::{sides, Error};
use compare::report::report;
use compare::shrink::shrunk;
use compare::sides::{Rattle, Second, Side};
use compare::sorts::SORTS;

/// More rounds than any of them needs.
const ROUNDS: u64 = 300;

fn first_failing(rattle: &dyn Side, second: &dyn Side) -> Option<Case> {
    (1..=ROUNDS)
        .flat_map(|seed| SORTS.iter().flat_map(move |sort| (sort.make)(seed)))
        .find(|case| compared(case, rattle, second).is_err())
}

/// Finds a planted error, makes the case small and reads it back from its text.
fn found(error: Error) -> (Case, Difference) {
    let (rattle, second) = sides(Some(error));
    let (rattle, second) = (&*rattle, &*second);
    let case = first_failing(rattle, second).unwrap_or_else(|| panic!("{:?} is not found", error));
    let small = shrunk(case.clone(), &|case| compared(case, rattle, second).is_err());
    assert!(small.text().len() <= case.text().len(), "{:?} grew", error);
    assert!(compared(&small, &Rattle, &Second).is_ok(), "{:?} is no error of Rattle's", error);
    let again = Case::parse(&small.text()).expect("the text reads");
    assert_eq!(again, small);
    let difference = compared(&again, rattle, second).expect_err("the small case fails too");
    assert!(report(&small, &difference, "replay", "FILE").contains("To see it again"));
    (small, difference)
}

#[test]
fn each_planted_error_is_found() {
    for &error in Error::ALL.iter().filter(|&&error| error != Error::ObservesSecret) {
        let (small, difference) = found(error);
        match error {
            Error::ShowsPastTheEnd => assert!(matches!(difference, Difference::Outside { .. })),
            _ => assert!(matches!(difference, Difference::Answers { .. })),
        }
        // A refusal for length cannot be made shorter than it is long.
        if error != Error::TakesLongerList {
            assert!(small.table().len() < 400, "{:?}: {} bytes", error, small.table().len());
        }
    }
}

/// Both sides have the error, so that they agree: two runs with different secrets alone show it.
#[test]
fn what_only_two_runs_show_is_found() {
    let (small, difference) = found(Error::ObservesSecret);
    assert!(matches!(difference, Difference::Leak { .. }));
    assert!(matches!(small, Case::Pair { .. }));
}
