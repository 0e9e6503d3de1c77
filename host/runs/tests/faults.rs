//! Every faulty library, made from the model and from the proved one, is caught, beside the crate wherever the compared range
//! can show the fault, and always against the model; and so is every faulty step of the proved one.

use runs::{
    against, beside,
    faults::{CaughtBy, Faulty, LIST_FAULTS, READER_FAULTS, WRITER_FAULTS},
    library_subject::Library,
    model_subject::Model,
    raw,
    step_faults::{FaultySteps, STEP_FAULTS},
    steps::Sound,
    subject::Subjects,
};

fn calls() -> u64 {
    if runs::short() {
        10_000
    } else {
        40_000
    }
}

/// A fixed cap may be too large or too small to show a fault at the cap.
fn fixed_cap() -> bool {
    oracle::fixed_cap().is_some()
}

fn check<S: Subjects + Clone>(name: String, faulty: &Faulty<S>, by: CaughtBy) {
    let beside = beside::run(faulty, 5, calls()).is_err();
    let against = against::run(faulty, 5, calls()).is_err();
    assert_eq!(beside, by == CaughtBy::Crate, "{} beside the crate", name);
    assert!(against, "{} against the model", name);
}

fn no_fault_is_not_caught<S: Subjects + Clone + Default>() {
    let sound = Faulty::<S>::default();
    assert!(beside::run(&sound, 5, calls()).is_ok());
    assert!(against::run(&sound, 5, calls()).is_ok());
}

fn reader_faults<S: Subjects + Clone + Default>() {
    if fixed_cap() {
        return;
    }
    for (fault, by) in READER_FAULTS {
        let faulty = Faulty::<S> {
            reader: Some(fault),
            ..Faulty::<S>::default()
        };
        check(format!("{:?}", fault), &faulty, by);
    }
}

fn writer_faults<S: Subjects + Clone + Default>() {
    for (fault, by) in WRITER_FAULTS {
        let faulty = Faulty::<S> {
            writer: Some(fault),
            ..Faulty::<S>::default()
        };
        check(format!("{:?}", fault), &faulty, by);
    }
}

fn list_faults_and_creation<S: Subjects + Clone + Default>() {
    for fault in LIST_FAULTS {
        let faulty = Faulty::<S> {
            list: Some(fault),
            ..Faulty::<S>::default()
        };
        check(format!("{:?}", fault), &faulty, CaughtBy::ModelOnly);
    }
    let faulty = Faulty::<S> {
        never_13: true,
        ..Faulty::<S>::default()
    };
    check("never 13".to_string(), &faulty, CaughtBy::ModelOnly);
}

#[test]
fn faults_of_steps() {
    assert!(raw::run_steps(&Sound, 5, calls()).is_ok());
    for fault in STEP_FAULTS {
        let run = raw::run_steps(&FaultySteps(fault), 5, calls());
        assert!(run.is_err(), "{:?}", fault);
    }
}

macro_rules! faults_in {
    ($name:ident, $sound:ty) => {
        mod $name {
            use super::*;

            #[test]
            fn none() {
                no_fault_is_not_caught::<$sound>();
            }

            #[test]
            fn of_readers() {
                reader_faults::<$sound>();
            }

            #[test]
            fn of_writers() {
                writer_faults::<$sound>();
            }

            #[test]
            fn of_lists_and_creation() {
                list_faults_and_creation::<$sound>();
            }
        }
    };
}

faults_in!(the_model, Model);
faults_in!(the_library, Library);
