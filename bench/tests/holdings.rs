//! Holding lists, judged by the library and by the independent implementation; and a count of what was met, by the kind of list, by what is wrong with
//! it and by the verdict.
use bench::lists::{self, FAULTS};
use bench::met::{Kinds, Met};
use bench::numbers::Numbers;
use bench::reference::{self, Refusal, Verdict};
use bench::unit;

const KINDS: [&str; 14] = [
    "our own: suits",
    "our own, in another order: suits",
    "our own, and a piece more: suits",
    "our own, one fewer needed: enough",
    "our own, a mark less: too few",
    "our own, a mark more: enough",
    "one piece each: too few",
    "some have more than others: too few",
    "all are needed: too few",
    "any marks: too few",
    "any marks: enough",
    "by its own policy: suits",
    "a required set is left out: enough",
    "a required set is cut: too few",
];

const PLACES: [&str; 9] = [
    "too few: group 3",
    "too few: everybody",
    "too few: another group",
    "enough: somebody alone",
    "enough: all but one",
    "enough: another group",
    "suits, all pieces needed, as many as ours",
    "suits, all pieces needed, more than ours",
    "suits, and fewer are needed than there are",
];

/// What a verdict says, without the group.
fn way(verdict: Verdict) -> &'static str {
    match verdict {
        Verdict::Suits => "suits",
        Verdict::Few(_) => "too few",
        Verdict::Many(_) => "enough",
    }
}

/// What is to be said of a list in order.
fn describe(kinds: &mut Kinds, case: &lists::Case, verdict: Verdict) {
    kinds.note(format!("{}: {}", case.kind, way(verdict)));
    let all = (1 << case.people) - 1;
    // where all pieces are needed, no list that suits has fewer than ours (SCOPE 2.2)
    let k = reference::plan(case.people, &case.required, &case.forbidden).unwrap().len();
    let all_needed = case.list.needed == case.list.pieces;
    assert!(verdict != Verdict::Suits || !all_needed || case.list.pieces >= k, "{case:?}");
    kinds.note(match verdict {
        Verdict::Suits if all_needed && case.list.pieces == k => "suits, all pieces needed, as many as ours",
        Verdict::Suits if all_needed => "suits, all pieces needed, more than ours",
        Verdict::Suits => "suits, and fewer are needed than there are",
        Verdict::Few(3) => "too few: group 3",
        Verdict::Few(group) if group == all => "too few: everybody",
        Verdict::Few(_) => "too few: another group",
        Verdict::Many(group) if group.count_ones() == 1 => "enough: somebody alone",
        Verdict::Many(group) if (all & !group).count_ones() == 1 => "enough: all but one",
        Verdict::Many(_) => "enough: another group",
    });
    // what follows from how the list was made
    let due = match case.kind {
        _ if !case.faults.is_empty() => return,
        "our own" | "our own, in another order" | "our own, and a piece more" | "by its own policy" => "suits",
        "our own, one fewer needed" | "our own, a mark more" => "enough",
        "our own, a mark less" => "too few",
        _ => return,
    };
    assert_eq!(way(verdict), due, "{case:?}");
}

#[test]
fn holding_lists() {
    let mut n = Numbers::new(11);
    let (mut met, mut kinds) = (Met::default(), Kinds::default());
    for _ in 0..100_000 {
        let case = lists::case(&mut n);
        let said = unit::judge(case.people, &case.required, &case.forbidden, &case.list);
        let expected = reference::judge(case.people, &case.required, &case.forbidden, &case.list);
        assert_eq!(said, expected, "{case:?}");
        met.note(&expected);
        match expected {
            Ok(verdict) => describe(&mut kinds, &case, verdict),
            Err(Refusal { number: 30, a, b }) => {
                assert_eq!((a, b), (0, 0));
                kinds.note(match case.faults[..] {
                    [fault] => format!("30: {fault}"),
                    _ => "30: two reasons".to_string(),
                });
            }
            Err(refused) => {
                assert_eq!(reference::plan(case.people, &case.required, &case.forbidden), Err(refused));
                let beside = if case.faults.is_empty() { "a list that may be in order" } else { "a list that is spoilt" };
                kinds.note(format!("planning's, beside {beside}"));
            }
        }
    }
    met.shows(&[0, 1, 2, 3, 4, 5, 6, 22, 30]);
    let grounds: Vec<String> = FAULTS.iter().map(|fault| format!("30: {fault}")).collect();
    let others = ["30: two reasons", "planning's, beside a list that may be in order", "planning's, beside a list that is spoilt"];
    let all: Vec<&str> = KINDS.into_iter().chain(PLACES).chain(grounds.iter().map(String::as_str)).chain(others).collect();
    kinds.shows(&all, 300);
}
