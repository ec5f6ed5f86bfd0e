//! What the program complains of, on logs and sources made up here.

use refusals::edit::{self, Edit, Goal};
use refusals::source::Sources;
use refusals::{judge, log};
use std::fs;
use std::path::PathBuf;

const TWO: &str = "\
wrong: first-is-second
file: src/pair.rt
old: a.first
new: a.second
refused: pair/first returns
why: the first of two.

wrong: sum-is-a-product
file: src/pair.rt
old: a + b
new: a * b
refused: pair/sum returns
unproved: pair/sum overflow_add-k
why: the sum of two.
";

const SOURCE: &str = "\
fn first(a: Pair) -> u8
{
    a.first
}

pub fn sum(a: u8, b: u8) -> u8
{
    a + b
}

// What a pair says, in turn.
#[cycle(heard_said)]
pub fn said(a: u8) -> u8
{
    if a < 8 { heard(a) } else { 3 }
}
";

const ANSWERS: &str = "pub returns-then-a-le1 : goal.g\nlet h : 1 ≤ a = omega (arith, c.if-a-le1.true)\n";

const LOG: &str = "\
checked c::pair::first, 1 of 3
./proofs/pair/first/Answers.antt:3:5: error: `returns`: as printed, the two types differ
  computed as far as they go, the two types differ: error: no more is known
./proofs/pair/first/Answers.antt:3:5: note: the two sides may simply be different (in `returns`)
./proofs/Pairs.antt:9:1: error: 2 declarations that depend on `returns`, which was rejected, were not checked: first_law, last_law (via first_law)
./proofs/theory/Sums.antt:4:1: error: 1 declaration that depends on `first_law`, which was not admitted, was not checked: total
struct c::Pair: proved
note: src/pair.rt:6:1: it is not proved that what the function ensures holds when it returns (`returns`); the facts known there allow values at which this goal is false
note: src/pair.rt:8:5: it is not proved that the product fits (`overflow_add-k`); `search` gave up at one of its limits
fn c::pair::sum: no proof: expected answers in ./proofs/pair/sum/Answers.antt; `search` did not prove `returns`, `overflow_add-k`; it calls `c::pair::first`, which is not proved
note: `search` has not tried the goals of `c::pair::said`, which wait for a callee's proof: some may be open after it
fn c::pair::said: not proved; it calls `c::pair::first`, which is not proved
crate c: modules loaded=158 checked=80
logic=not-proved
rt: rt lemma WORD.. finds a lemma by guessed names or words of the goal
";

fn two(text: &str) -> Edit {
    let wrongs = edit::parse(text).expect("an edit file");
    Edit { crate_name: "c".to_string(), label: "two".to_string(), wrongs }
}

/// A crate with the source above, in a folder of the test's own.
fn sources(test: &str) -> Sources {
    let folder: PathBuf = std::env::temp_dir().join(format!("refusals-{}-{}", test, std::process::id()));
    fs::create_dir_all(folder.join("src")).expect("a folder");
    fs::write(folder.join("src/pair.rt"), SOURCE).expect("a file");
    for function in ["first", "sum"] {
        fs::create_dir_all(folder.join("proofs/pair").join(function)).expect("a folder");
        fs::write(folder.join("proofs/pair").join(function).join("Answers.antt"), ANSWERS).expect("a file");
    }
    Sources::of(&folder)
}

fn of_log(edit: &str, log: &str) -> Vec<String> {
    judge::of_log(&two(edit), &log::parse("c", log))
}

fn of_text(test: &str, edit: &str) -> Vec<String> {
    judge::of_text(&two(edit), &mut sources(test))
}

fn without(text: &str, line: &str) -> String {
    assert!(text.contains(line), "{}", line);
    text.replacen(line, "", 1)
}

#[test]
fn what_is_as_it_says_is_let_pass() {
    assert!(of_text("right", TWO).is_empty());
    assert!(of_log(TWO, LOG).is_empty());
}

#[test]
fn a_log_gives_the_goals_that_were_tried_and_refused() {
    let said = log::parse("c", LOG);
    let goals =
        [Goal::new("pair/first", "returns"), Goal::new("pair/sum", "overflow_add-k"), Goal::new("pair/sum", "returns")];
    assert_eq!(said.refused.iter().cloned().collect::<Vec<_>>(), goals);
    let waiting = [
        Goal::new("proofs/Pairs", "first_law"),
        Goal::new("proofs/Pairs", "last_law"),
        Goal::new("proofs/theory/Sums", "total"),
    ];
    assert_eq!(said.waiting.iter().cloned().collect::<Vec<_>>(), waiting);
    assert!(said.unfit.is_empty() && said.ended);
}

#[test]
fn a_law_has_its_file_for_a_home() {
    for (file, home) in [("specs/Levels", "specs/Levels"), ("proofs/theory/Levels", "proofs/theory/Levels")] {
        for top in [".", "/x/crates/model"] {
            let line = format!("{}/{}.antt:124:88: error: `join_left`: `omega`: the goal does not follow", top, file);
            assert!(log::parse("model", &line).refused.contains(&Goal::new(home, "join_left")));
        }
    }
}

#[test]
fn a_goal_of_a_cycle_without_an_answer_has_the_cycle_for_a_home() {
    let goal = [Goal::new("pair/+heard_said", "said-returns")];
    let open = "note: src/pair.rt:9:1: it is not proved that it holds (`said-returns`)\n";
    let no_file = format!(
        "{}fn c::pair::heard: no proof: expected answers in ./proofs/pair/+heard_said/Answers.antt; `search` did not prove `said-returns`\n",
        open
    );
    assert_eq!(log::parse("c", &no_file).refused.into_iter().collect::<Vec<_>>(), goal);
    let beside = "./proofs/pair/+heard_said/Answers.antt:3:5: error: `said-returns`: the types differ\n";
    let beside_it = format!("{}{}fn c::pair::said: not proved\n", beside, open);
    assert_eq!(log::parse("c", &beside_it).refused.into_iter().collect::<Vec<_>>(), goal);
}

#[test]
fn a_harmless_line_among_wrong_ones_fails() {
    let only_first: String =
        LOG.lines().take(3).chain(["logic=not-proved"]).map(|line| format!("{}\n", line)).collect();
    assert_eq!(
        of_log(TWO, &only_first),
        [
            "sum-is-a-product: NOT REFUSED at pair/sum returns",
            "sum-is-a-product: still proved: pair/sum overflow_add-k"
        ]
    );
}

#[test]
fn a_goal_that_only_waits_is_not_refused() {
    let waits = LOG.replace(
        "error: `returns`: as printed, the two types differ",
        "error: 1 declaration that depends on `law`, which was rejected, was not checked: returns",
    );
    assert_eq!(of_log(TWO, &waits), ["first-is-second: NOT REFUSED at pair/first returns"]);
}

#[test]
fn a_goal_may_be_one_of_those_that_the_log_only_counts() {
    let laws = TWO.replace("unproved: pair/sum overflow_add-k", "unproved: proofs/Pairs far_law");
    let log = LOG.replace(", `overflow_add-k`", "").replace("(`overflow_add-k`)", "");
    assert_eq!(of_log(&laws, &log), ["sum-is-a-product: still proved: proofs/Pairs far_law"]);
    assert!(of_log(&laws, &log.replace("(via first_law)", "(via first_law) and 1 more")).is_empty());
}

#[test]
fn a_refused_goal_that_nobody_names_fails() {
    let silent = without(TWO, "unproved: pair/sum overflow_add-k\n");
    assert_eq!(of_log(&silent, LOG), ["refused, and no line names it: pair/sum overflow_add-k"]);
}

#[test]
fn a_goal_that_vanished_fails() {
    for reason in [
        "`goal.add-k`: module `Rattle.c.proofs.pair.sum.Goals` has no `add-k` that can be named from here",
        "record `Rattle.c.proofs.pair.sum.Lts.Else1` has no field `if-a-le1` (nearest: .if-a-le0)",
        "`lemma` is not in scope",
    ] {
        let gone = format!("{}./proofs/pair/sum/Answers.antt:4:1: error: `add-k`: {}\n", LOG, reason);
        assert_eq!(of_log(TWO, &gone), [format!("no fact: pair/sum add-k: {}", reason)]);
    }
    let quoted =
        LOG.replace("the two types differ\n", "they differ where one has `has no field` and `is not in scope`\n");
    assert!(of_log(TWO, &quoted).is_empty());
}

#[test]
fn an_error_of_another_sort_fails() {
    for line in [
        "src/pair.rt:3:5: error[unknown-name]: no `a` is in scope",
        "./src/pair.rt:3:5: error: expected a type",
        "./proofs/pair/sum/Answers.antt:4:1: error: expected the end of the line",
    ] {
        assert_eq!(of_log(TWO, &format!("{}{}\n", LOG, line)), [format!("no fact: {}", line)]);
    }
}

#[test]
fn a_check_without_a_verdict_fails() {
    assert_eq!(of_log(TWO, &without(LOG, "logic=not-proved\n")), ["its check came to no verdict"]);
}

#[test]
fn a_wrong_program_without_a_goal_fails() {
    let aimless = without(TWO, "refused: pair/first returns\n");
    assert_eq!(of_text("aimless", &aimless), ["first-is-second: it names no goal that it makes false"]);
}

#[test]
fn a_wrong_program_without_a_reason_or_a_change_fails() {
    let silent = without(TWO, "why: the sum of two.\n");
    assert_eq!(of_text("silent", &silent), ["sum-is-a-product: it does not say why"]);
    let idle = without(TWO, "file: src/pair.rt\nold: a.first\nnew: a.second\n");
    assert!(of_text("idle", &idle).contains(&"first-is-second: it changes nothing".to_string()));
}

#[test]
fn a_goal_of_a_function_that_is_not_changed_fails() {
    let stolen = TWO.replacen("refused: pair/first returns", "refused: pair/sum returns-3", 1);
    assert_eq!(
        of_text("stolen", &stolen),
        ["first-is-second: pair/sum returns-3 is no goal of a function that it changes"]
    );
}

#[test]
fn two_wrong_programs_of_one_function_fail() {
    let twice = TWO.replacen(
        "old: a.first\nnew: a.second\nrefused: pair/first",
        "old: fn sum(a\nnew: fn sum(x\nrefused: pair/sum",
        1,
    );
    let complaints = of_text("twice", &twice);
    assert!(
        complaints.contains(&"sum-is-a-product: another wrong program of the file changes pair/sum too".to_string())
    );
    assert!(complaints.contains(&"first-is-second: each goal that it makes false is another's too".to_string()));
}

#[test]
fn a_function_of_a_cycle_has_its_goals_in_the_cycle() {
    let of = |home_and_goal: &str| {
        let said = "file: src/pair.rt\nold: { 3 }\nnew: { 4 }\nrefused: ";
        TWO.replace("file: src/pair.rt\nold: a.first\nnew: a.second\nrefused: ", said).replacen(
            "pair/first returns",
            home_and_goal,
            1,
        )
    };
    for own in ["pair/+heard_said said-returns", "pair/+said returns", "pair/said returns"] {
        assert!(of_text("cycle", &of(own)).is_empty(), "{}", own);
    }
    for strange in ["pair/+heard_said heard-returns", "pair/+heard returns", "+heard_said said-returns"] {
        let complaint = format!("first-is-second: {} is no goal of a function that it changes", strange);
        assert_eq!(of_text("cycle", &of(strange)), [complaint]);
    }
}

#[test]
fn a_method_has_its_goals_in_its_type() {
    for (block, home) in [
        ("impl Pair {", "pair/Pair/half"),
        ("impl<'a> Pair<'a> {", "pair/Pair/half"),
        ("impl TryFrom<u8> for Pair {", "pair/PairTryFromU8/half"),
    ] {
        let folder = std::env::temp_dir().join(format!("refusals-method-{}", std::process::id()));
        sources("method");
        let text = format!("{}\n{}\n    pub fn half(self) -> u8 {{\n        self.a / 2\n    }}\n}}\n", SOURCE, block);
        fs::write(folder.join("src/pair.rt"), text).expect("a file");
        let edit = |home: &str| {
            let lines = "wrong: third\nfile: src/pair.rt\nold: self.a / 2\nnew: self.a / 3\nrefused: HOME returns\nwhy: half.\n";
            two(&lines.replace("HOME", home))
        };
        assert!(judge::of_text(&edit(home), &mut Sources::of(&folder)).is_empty(), "{}", block);
        let complaint = "third: pair/half returns is no goal of a function that it changes";
        assert_eq!(judge::of_text(&edit("pair/half"), &mut Sources::of(&folder)), [complaint]);
    }
}

#[test]
fn a_proof_may_follow_the_names_of_its_code_and_nothing_more() {
    let of = |file: &str, old: &str, new: &str| {
        let change = format!("old: a + b\nnew: a * b\nfile: {}\nold: {}\nnew: {}\n", file, old, new);
        of_text("renames", &TWO.replacen("old: a + b\nnew: a * b\n", &change, 1))
    };
    let own = "proofs/pair/sum/Answers.antt";
    assert!(of(own, "c.if-a-le1.true", "c.if-a-le2.true").is_empty());
    assert!(of(own, "pub returns-then-a-le1 :", "pub returns-then-a-le2 :").is_empty());
    assert!(of(own, "let h : 1", "{- let h : 1 -} let h : 1").is_empty());
    let more = ["sum-is-a-product: more than names of goals and places changes in proofs/pair/sum/Answers.antt"];
    assert_eq!(of(own, "1 ≤ a", "2 ≤ a"), more);
    assert_eq!(of(own, "c.if-a-le1.true", "c.if-a-le1.true, h"), more);
    assert_eq!(of(own, "c.if-a-le1.true", "c.join-a-le2.true"), more);
    assert_eq!(of(own, "c.if-a-le1.true", "c.returns-then-a-le1.true"), more);
    assert_eq!(of(own, "omega (arith", "{- omega (arith"), more);
    let other = "proofs/pair/first/Answers.antt";
    assert_eq!(
        of(other, "c.if-a-le1.true", "c.if-a-le2.true"),
        [format!("sum-is-a-product: {} is no proof of a function that it changes", other)]
    );
}

#[test]
fn a_text_that_is_not_there_or_stands_twice_fails() {
    let lost = TWO.replace("old: a.first", "old: a.third");
    assert_eq!(of_text("lost", &lost), ["first-is-second: not in src/pair.rt: a.third"]);
    let often = TWO.replace("old: a.first", "old: u8");
    assert_eq!(of_text("often", &often), ["first-is-second: more than once in src/pair.rt: u8"]);
}

#[test]
fn a_log_that_is_missing_fails() {
    let nowhere = std::env::temp_dir().join("refusals-nowhere");
    let complaints = refusals::complaints(&nowhere, &nowhere, &two(TWO));
    assert!(complaints.iter().any(|what| what.starts_with("c/two: no log: ")), "{:?}", complaints);
}

#[test]
fn a_line_of_an_unknown_sort_fails() {
    assert_eq!(edit::parse("wrong: x\nrefsued: y z\n"), Err("line 2: a line of an unknown sort".to_string()));
    assert_eq!(edit::parse("old: x\n"), Err("line 1: it stands before the first `wrong:`".to_string()));
    assert_eq!(
        edit::parse("wrong: x\nold: a\nnew: b\n").map(|_| ()),
        Err("line 3: `new:` without a `file:` and an `old:` of the same wrong program".to_string())
    );
    assert!(of_text("empty", "").contains(&"it has no `wrong:` line".to_string()));
}
