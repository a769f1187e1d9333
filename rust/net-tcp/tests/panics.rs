//! Each call of an end that requires something panics where that isn't so, as net-base's test of this name has it.
#[path = "../../tests/support/mod.rs"]
mod support;

use net_base::time::Duration;
use net_tcp::{ReceivingEndOver, SendingEndOver, TimeoutBounds};
use support::panics;

#[test]
fn each_call_that_requires_something() {
    let (end, second) = ("no number is left for an end", Duration::from_secs(1));
    let bounds = TimeoutBounds::new();
    let mut it = ReceivingEndOver::<_, 2>::over_at([0; 4], 0, 1);
    let mut sender = SendingEndOver::<_, 2>::over_at([0; 4], 0, second, bounds);
    panics("ReceivingEndOver::over_at", end, || {
        ReceivingEndOver::<_, 2>::over_at([0; 4], u64::MAX, 1)
    });
    panics("ReceivingEndOver::open", end, || it.open(u64::MAX, 0));
    let lent = "more bytes than were lent";
    panics("ReceivingEndOver::read_with", lent, || it.read_with(|part| (part.len() + 1, ())));
    panics("SendingEndOver::over_at", end, || {
        SendingEndOver::<_, 2>::over_at([0; 4], u64::MAX, second, bounds)
    });
    panics("SendingEndOver::reset_at", end, || sender.reset_at(u64::MAX));
}
