use super::*;
use crate::script::carriers::Carriers;
use crate::script::play;
use crate::script::possible::{outcome, possible};
use std::collections::BTreeMap;

#[test]
fn scripts_reach_every_refusal_of_every_call() {
    let mut random = Random::new(1);
    let mut met: BTreeMap<(String, u8), usize> = BTreeMap::new();
    for _ in 0..500 {
        let carriers = &mut Carriers::fresh();
        for call in script(&mut random).calls {
            let outcome = outcome(&call, &play::line(carriers, &call));
            *met.entry(outcome).or_insert(0) += 1;
        }
    }
    for pair in possible() {
        let count = met.remove(&pair).unwrap_or(0);
        assert!(count >= 10, "{pair:?}: {count}");
    }
    assert!(met.is_empty(), "not possible: {met:?}");
}

/// A table as it was left is good or was never opened; one altered in between is
/// judged anew.
#[test]
fn alterations_keep_the_table_good_or_spoil_it() {
    let mut random = Random::new(2);
    let (mut kept, mut spoilt) = (0, 0);
    for _ in 0..100 {
        let carriers = &mut Carriers::fresh();
        for call in script(&mut random).calls {
            let before = carriers.table.record();
            play::line(carriers, &call);
            let after = carriers.table.record();
            if matches!(call, Call::Table(TableCall::Alter { .. })) && before.is_ok() {
                kept += u32::from(after.is_ok() && after != before);
                spoilt += u32::from(after.is_err());
            }
        }
    }
    assert!(kept >= 50 && spoilt >= 50, "{kept} {spoilt}");
}

#[test]
fn every_script_begins_fresh_and_ends_with_the_table() {
    let mut random = Random::new(4);
    for _ in 0..100 {
        let calls = script(&mut random).calls;
        assert_eq!(calls.first(), Some(&Call::Fresh));
        assert_eq!(calls.last(), Some(&Call::Table(TableCall::Sum)));
        assert_eq!(calls.iter().filter(|&call| call == &Call::Fresh).count(), 1);
    }
}
