//! Libraries that keep other marks of loads and stores, or clear them otherwise: the comparison of sheets tells each apart.

use super::tests::{is_found, AnswerFault, Faulty};
use super::*;
use staplehorn_reference::name::Name;
use staplehorn_reference::statement::Address;

/// A load, or else a store, that is outstanding. The holding is its number in the order of allocs.
#[derive(Clone, Copy, PartialEq)]
struct Mark {
    holding: usize,
    warp: u8,
    store: bool,
}

/// The name of each holding, while it is live, and what is outstanding.
#[derive(Default)]
struct Books {
    names: Vec<Option<Name>>,
    marks: Vec<Mark>,
}

impl Books {
    fn holding(&self, name: &Name) -> usize {
        self.names.iter().position(|live| live.as_ref() == Some(name)).expect("the name is a live holding's")
    }

    fn note(&mut self, rules: Rules, address: &Address, warp: u8, store: bool) {
        let mark = Mark { holding: self.holding(&address.name), warp, store };
        (rules.note)(&mut self.marks, mark);
    }
}

/// What a library does with marks.
#[derive(Clone, Copy)]
struct Rules {
    note: fn(&mut Vec<Mark>, Mark),
    /// A warp waits for its loads, or else its stores.
    wait: fn(&mut Vec<Mark>, u8, bool),
    /// Whether a mark stops a warp from giving a holding back.
    stops: fn(&Mark, usize, u8) -> bool,
    /// What each line does besides, and first.
    also: fn(&mut Books, &Step),
}

const RIGHT: Rules = Rules {
    note: |marks, mark| {
        if !marks.contains(&mark) {
            marks.push(mark)
        }
    },
    wait: |marks, warp, store| marks.retain(|mark| mark.warp != warp || mark.store != store),
    stops: |mark, holding, _| mark.holding == holding,
    also: |_, _| {},
};

/// The line of the first dealloc that is refused with 18. No line before it is refused with another reason.
fn outstanding_line(steps: &[Step], rules: Rules) -> Option<u32> {
    let mut b = Books::default();
    for (line, step) in (2..).zip(steps) {
        (rules.also)(&mut b, step);
        let Step { warp, statement } = step;
        match statement {
            Statement::Alloc { name, .. } => b.names.push(Some(*name)),
            Statement::Ld { address, .. } => b.note(rules, address, *warp, false),
            Statement::St { address, .. } => b.note(rules, address, *warp, true),
            Statement::WaitLd => (rules.wait)(&mut b.marks, *warp, false),
            Statement::WaitSt => (rules.wait)(&mut b.marks, *warp, true),
            Statement::Dealloc { name, .. } => {
                let holding = b.holding(name);
                if b.marks.iter().any(|mark| (rules.stops)(mark, holding, *warp)) {
                    return Some(line);
                }
                b.names[holding] = None;
            }
            _ => {}
        }
    }
    None
}

/// What a library with these rules answers to a sheet that passes or is refused with 18. Where it goes on behind that, any
/// other answer will do.
fn judge_by(sheet: &[u8], a: &mut Answer, rules: Rules) {
    if !matches!(a[0], 0 | 18) {
        return;
    }
    match outstanding_line(&steps_to(sheet, a[1]), rules) {
        Some(line) => (a[0], a[1]) = (18, line),
        None if a[0] == 18 => *a = [0, a[1], 0, 0, a[4], 0],
        None => {}
    }
}

#[test]
fn the_right_rules_of_waits_agree() {
    assert!(!is_found(&Faulty(|s, _, a| judge_by(s, a, RIGHT))));
}

// That marks outlive their holding is no fault that a sheet could show: a dealloc that is accepted leaves none.
#[test]
fn faults_of_waits_are_found() {
    let faults: [(&str, AnswerFault); 9] = [
        ("18 passed over", |_, _, a| {
            if a[0] == 18 {
                *a = [0, a[1], 0, 0, a[4], 0]
            }
        }),
        ("a wait clears every warp", |s, _, a| {
            let wait = |marks: &mut Vec<Mark>, _, store| marks.retain(|mark| mark.store != store);
            judge_by(s, a, Rules { wait, ..RIGHT })
        }),
        ("a wait clears one holding", |s, _, a| {
            let wait = |marks: &mut Vec<Mark>, warp, store| {
                let first = marks.iter().position(|mark| mark.warp == warp && mark.store == store);
                first.map(|at| marks.remove(at));
            };
            judge_by(s, a, Rules { wait, ..RIGHT })
        }),
        ("wait::st clears loads", |s, _, a| {
            let wait = |marks: &mut Vec<Mark>, warp, store: bool| marks.retain(|mark| mark.warp != warp || mark.store && !store);
            judge_by(s, a, Rules { wait, ..RIGHT })
        }),
        ("wait::ld clears stores", |s, _, a| {
            let wait = |marks: &mut Vec<Mark>, warp, store| marks.retain(|mark| mark.warp != warp || !mark.store && store);
            judge_by(s, a, Rules { wait, ..RIGHT })
        }),
        ("a wait takes one load of several", |s, _, a| {
            let note = |marks: &mut Vec<Mark>, mark| marks.push(mark);
            judge_by(s, a, Rules { note, wait: take_one_each, ..RIGHT })
        }),
        ("a fence clears", |s, _, a| {
            let also = |b: &mut Books, step: &Step| {
                if matches!(step.statement, Statement::FenceBefore | Statement::FenceAfter) {
                    b.marks.retain(|mark| mark.warp != step.warp)
                }
            };
            judge_by(s, a, Rules { also, ..RIGHT })
        }),
        ("a star waits for nothing", |s, l, a| {
            if a[0] == 0 {
                let other = String::from_utf8_lossy(s).replace("*\ttcgen05.wait::ld.sync.aligned", "*\ttcgen05.fence::after_thread_sync");
                *a = Reference.judge(other.as_bytes(), &mut l.to_vec()).1
            }
        }),
        ("warp 3 is not waited for", |s, _, a| {
            let wait = |marks: &mut Vec<Mark>, warp, store| {
                if warp != 3 {
                    (RIGHT.wait)(marks, warp, store)
                }
            };
            judge_by(s, a, Rules { wait, ..RIGHT })
        }),
    ];
    for (name, fault) in faults {
        assert!(is_found(&Faulty(fault)), "{name}");
    }
}

/// Takes away one mark of the warp and sort on each holding.
fn take_one_each(marks: &mut Vec<Mark>, warp: u8, store: bool) {
    let mut taken = Vec::new();
    marks.retain(|mark| {
        let stays = mark.warp != warp || mark.store != store || taken.contains(&mark.holding);
        if !stays {
            taken.push(mark.holding);
        }
        stays
    });
}

#[test]
fn faults_of_marks_are_found() {
    let faults: [(&str, AnswerFault); 6] = [
        ("a mark of any holding", |s, _, a| judge_by(s, a, Rules { stops: |_, _, _| true, ..RIGHT })),
        ("the booking warp's marks alone", |s, _, a| {
            let stops = |mark: &Mark, holding, warp| mark.holding == holding && mark.warp == warp;
            judge_by(s, a, Rules { stops, ..RIGHT })
        }),
        ("loads alone", |s, _, a| {
            let stops = |mark: &Mark, holding, _| mark.holding == holding && !mark.store;
            judge_by(s, a, Rules { stops, ..RIGHT })
        }),
        ("stores alone", |s, _, a| {
            let stops = |mark: &Mark, holding, _| mark.holding == holding && mark.store;
            judge_by(s, a, Rules { stops, ..RIGHT })
        }),
        ("a dealloc clears another holding", |s, _, a| {
            let also = |b: &mut Books, step: &Step| {
                if let Statement::Dealloc { name, .. } = &step.statement {
                    let gone = b.holding(name);
                    b.marks.retain(|mark| mark.holding <= gone)
                }
            };
            judge_by(s, a, Rules { also, ..RIGHT })
        }),
        ("an mma is outstanding", |s, _, a| {
            let also = |b: &mut Books, step: &Step| {
                if let Statement::Mma { d, .. } = &step.statement {
                    b.note(RIGHT, d, step.warp, true)
                }
            };
            judge_by(s, a, Rules { also, ..RIGHT })
        }),
    ];
    for (name, fault) in faults {
        assert!(is_found(&Faulty(fault)), "{name}");
    }
}

/// A dealloc is refused with 18 before this reason.
fn outstanding_before(reason: u32, sheet: &[u8], a: &mut Answer) {
    if a[0] == reason && outstanding_line(&steps_to(sheet, a[1]), RIGHT).is_some() {
        (a[0], a[2]) = (18, 3);
    }
}

#[test]
fn faults_in_the_place_of_18_are_found() {
    let faults: [(&str, AnswerFault); 4] = [
        ("18 before 8", |s, _, a| outstanding_before(8, s, a)),
        ("18 before 9", |s, _, a| outstanding_before(9, s, a)),
        ("held after the dealloc", |_, _, a| {
            if a[0] == 18 {
                a[3] -= 32
            }
        }),
        ("the warp field of a dealloc", |_, _, a| {
            if a[0] == 18 {
                a[2] = 1
            }
        }),
    ];
    for (name, fault) in faults {
        assert!(is_found(&Faulty(fault)), "{name}");
    }
}
