//! The first lines of this package, as `rust/tests/first_lines.rs` has those of net-base.
use net_base::time::Duration;
use net_tcp::{ReceivingEnd, RetransmissionTimer, Sack, SendingEnd, TimeoutBounds};

#[test]
fn machines() {
    let (mut storage, second) = ([0; 16], Duration::from_secs(1));
    // RetransmissionTimer::new()
    assert_eq!(RetransmissionTimer::new(second, Sack::Permitted).expires_at(), None);
    // SendingEnd::<4>::new(&mut storage)
    let mut sending = SendingEnd::<4>::new(&mut storage, second, TimeoutBounds::new());
    assert_eq!(sending.write(b"abc"), 3);
    // ReceivingEnd::<4>::new(&mut storage)
    assert!(!ReceivingEnd::<4>::new(&mut storage, 536).is_due());
}
