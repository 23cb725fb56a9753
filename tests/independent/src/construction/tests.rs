use super::*;
use crate::examples;
use crate::make::good;
use crate::random::Random;

fn view(record: &Record, seat: usize, time: Time) -> Vec<Time> {
    let view = Views::new(record).of_place(Place { seat, time });
    view.latest_times(record.seats).collect()
}

fn known_to(record: &Record, seat: usize, time: Time) -> Vec<usize> {
    let views = &mut Views::new(record);
    let view = views.of_place(Place { seat, time });
    views.known(&view).iter().collect()
}

/// Critical time, kept set, steps, core.
type Found = (Time, Vec<usize>, usize, Vec<Time>);

fn found(record: &Record, seat: usize, time: Time) -> Result<Found, Refusal> {
    let settled = settle(&mut Views::new(record), Place { seat, time })?;
    let core = settled.core.latest_times(record.seats).collect();
    let kept = settled.kept.iter().collect();
    Ok((settled.critical, kept, settled.steps, core))
}

#[test]
fn p1_to_p3_no_loss() {
    let record = examples::no_loss();
    assert_eq!(view(&record, 0, 0), [0, -1, -1]);
    assert_eq!(found(&record, 0, 0), Ok((-2, vec![], 1, vec![-1, -1, -1])));
    assert_eq!(view(&record, 0, 2), [2, 1, 1]);
    assert_eq!(found(&record, 0, 2), Ok((0, vec![], 1, vec![0, 0, 0])));
    assert_eq!(found(&record, 0, 3), Ok((1, vec![], 1, vec![1, 1, 1])));
}

#[test]
fn p4_to_p6_one_loss() {
    let record = examples::one_loss();
    assert_eq!(view(&record, 0, 1), [1, 0, -1]);
    assert_eq!(known_to(&record, 0, 1), [2]);
    assert_eq!(found(&record, 0, 1), Ok((-1, vec![], 2, vec![-1, -1, -1])));
    assert_eq!(view(&record, 1, 1), [0, 1, 0]);
    assert!(known_to(&record, 1, 1).is_empty());
    assert_eq!(found(&record, 1, 1), Ok((-1, vec![], 1, vec![-1, -1, -1])));
    assert_eq!(view(&record, 0, 2), [2, 1, 1]);
    assert_eq!(found(&record, 0, 2), Ok((1, vec![2], 1, vec![1, 1, 0])));
}

#[test]
fn p7_and_p8_two_losers() {
    let record = examples::two_losers();
    assert_eq!(view(&record, 0, 3), [3, 1, 2]);
    assert_eq!(known_to(&record, 0, 3), [1, 2]);
    assert_eq!(found(&record, 0, 3), Ok((1, vec![2], 2, vec![1, 1, 0])));
    assert_eq!(view(&record, 1, 3), [2, 3, 2]);
    assert_eq!(known_to(&record, 1, 3), [2]);
    assert_eq!(found(&record, 1, 3), Ok((1, vec![2], 1, vec![1, 1, 0])));
}

#[test]
fn p9_over_the_bound() {
    let record = examples::over_the_bound();
    assert_eq!(found(&record, 0, 1), Err(Refusal::Over));
    assert_eq!(found(&record, 1, 1).map(|answer| answer.0), Ok(-1));
}

#[test]
fn p10_bound_zero() {
    let record = examples::bound_zero();
    assert_eq!(found(&record, 0, 0), Ok((-1, vec![], 1, vec![-1, -1])));
    assert_eq!(found(&record, 0, 1), Ok((0, vec![], 1, vec![0, 0])));
}

/// A new loser shows itself to seat 6 in each round, so each step back
/// drops one: the longest chain there is.
#[test]
fn the_longest_chain_has_bound_and_one_steps() {
    let mut record = Record { seats: 7, bound: 6, rounds: 6, losses: vec![0; 42], edits: vec![] };
    for loser in 0..6 {
        record.losses[loser * 7 + loser] = 1 << 6;
    }
    assert_eq!(found(&record, 6, 6).map(|answer| answer.2), Ok(7));
}

/// Condition 3: within the bound, all clean seats find the same at each time,
/// and an edit in the view of one of them at time e is in all their cores from
/// time e + t + 1 on.
#[test]
fn clean_seats_agree_and_keep_the_deadline() {
    let mut random = Random::new(41);
    for _ in 0..2_000 {
        let record = good::small_record(&mut random);
        let clean: Vec<usize> = (0..record.seats).filter(|&seat| !record.is_loser(seat)).collect();
        if record.seats - clean.len() <= record.bound {
            for time in 0..=record.rounds {
                agree(&record, &clean, time);
                keep_deadline(&record, &clean, time);
            }
        }
    }
}

fn agree(record: &Record, clean: &[usize], time: Time) {
    let answers = clean.iter().map(|&seat| {
        let (critical, kept, _, core) = found(record, seat, time).unwrap();
        (critical, kept, core)
    });
    let answers: Vec<_> = answers.collect();
    assert!(answers.windows(2).all(|pair| pair[0] == pair[1]));
}

fn keep_deadline(record: &Record, clean: &[usize], time: Time) {
    let views = &mut Views::new(record);
    for &seat in clean {
        let seen = views.of_place(Place { seat, time });
        for later in time + record.bound as Time + 1..=record.rounds {
            for &other in clean {
                let settled = settle(views, Place { seat: other, time: later }).ok().unwrap();
                assert!(seen.places().all(|place| settled.core.contains(place)));
            }
        }
    }
}
