//! The crate's side without a port: the rules say which calls are passed over, and no call trips an assertion but by a named cause.

use crate::differences::judged;
use crate::draw::{Kinds, draw};
use crate::machine::Machine;
use crate::{panics, rules};
use std::collections::BTreeMap;

#[test]
fn panics_have_causes() {
    panics::keep_silent();
    let kinds = Kinds { waits: true, states: true, acquiring: true, removal: true };
    let mut tally: BTreeMap<String, u64> = BTreeMap::new();
    for list in 0..1000 {
        let script = draw(5, list, 200, kinds);
        let mut machine = Machine::new("alone", script.length().unwrap());
        for call in &script.calls {
            let unheld = matches!(*call, crate::script::Call::Write(place, word) if !machine.can_hold(place, word));
            if unheld || !machine.can_take(call) {
                break;
            }
            let refusal = rules::expected(&machine, call);
            if let Some(number) = refusal {
                machine.pass_over(call);
                *tally.entry(format!("{} refused {number} by its rule", call.name())).or_default() += 1;
                continue;
            }
            let value = judged(&machine, call);
            match machine.perform(call) {
                Ok(answer) => *tally.entry(crate::compare::kind(call, &answer)).or_default() += 1,
                Err(panic) => {
                    let multiplied = panic.contains("multiply with overflow");
                    assert!(value.is_some() || multiplied, "list {list}, {call}: {panic}");
                    *tally.entry(format!("{} {panic}", call.name())).or_default() += 1;
                    break;
                }
            }
            if machine.parted.is_some() {
                break;
            }
        }
    }
    tally.iter().for_each(|(name, count)| println!("{count:>10} {name}"));
}
