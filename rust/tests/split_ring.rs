//! Two sides of a ring of atomics, in each order of their steps.
use net_base::storage::{SplitCounts, SplitSpan};
use std::thread;

/// Atomics each access of which waits until the test lets that side take its step.
mod atomic {
    pub use std::sync::atomic::Ordering;
    use std::sync::{atomic, Condvar, Mutex};

    thread_local!(pub static SIDE: std::cell::Cell<Option<usize>> = const { std::cell::Cell::new(None) });

    /// Which sides are about to take a step, which are at their end, and which may take its step.
    pub struct Stage {
        pub waits: [bool; 2],
        pub ended: [bool; 2],
        pub turn: Option<usize>,
    }

    pub static STAGE: Mutex<Stage> =
        Mutex::new(Stage { waits: [false; 2], ended: [false; 2], turn: None });
    pub static CHANGED: Condvar = Condvar::new();

    /// Waits for the turn of this thread's side, if it has one.
    fn step() {
        let Some(side) = SIDE.get() else { return };
        let mut stage = STAGE.lock().expect("no side panics");
        stage.waits[side] = true;
        CHANGED.notify_all();
        let mut stage =
            CHANGED.wait_while(stage, |it| it.turn != Some(side)).expect("no side panics");
        (stage.turn, stage.waits[side]) = (None, false);
    }

    macro_rules! atomics {
        ($($name:ident $value:ty;)*) => {$(
            #[derive(Debug)]
            pub struct $name(atomic::$name);

            impl $name {
                pub const fn new(value: $value) -> Self {
                    $name(atomic::$name::new(value))
                }

                pub fn load(&self, order: Ordering) -> $value {
                    step();
                    self.0.load(order)
                }

                pub fn store(&self, value: $value, order: Ordering) {
                    step();
                    self.0.store(value, order);
                }
            }
        )*};
    }

    atomics! {
        AtomicU8 u8;
        AtomicUsize usize;
    }
}

/// The crate's text, over these atomics.
#[path = "../src/storage/by_hand_split_ring.rs"]
mod by_hand_split_ring;
use by_hand_split_ring::SplitRing;

/// Runs both sides, and lets each step be that of a side as `choices` says, then of the first one. Returns the choices
/// that there were.
fn play_sides(choices: &[usize], sides: [&mut (dyn FnMut() + Send); 2]) -> Vec<usize> {
    *atomic::STAGE.lock().expect("no side panics") =
        atomic::Stage { waits: [false; 2], ended: [false; 2], turn: None };
    let mut made = vec![];
    thread::scope(|threads| {
        for (side, play) in sides.into_iter().enumerate() {
            threads.spawn(move || {
                atomic::SIDE.set(Some(side));
                play();
                atomic::STAGE.lock().expect("no side panics").ended[side] = true;
                atomic::CHANGED.notify_all();
            });
        }
        loop {
            let stage = atomic::STAGE.lock().expect("no side panics");
            let mut stage = atomic::CHANGED
                .wait_while(stage, |it| {
                    it.turn.is_some() || (0..2).any(|side| !it.waits[side] && !it.ended[side])
                })
                .expect("no side panics");
            let side = match stage.waits {
                [false, false] => break,
                [true, true] => {
                    let side = choices.get(made.len()).copied().unwrap_or(0);
                    made.push(side);
                    side
                }
                [first, _] => usize::from(!first),
            };
            stage.turn = Some(side);
            atomic::CHANGED.notify_all();
        }
    });
    made
}

/// Writes and reads at once, in each order of the steps, on a ring of two bytes of which one was used. Returns how many
/// orders there are.
fn play_all(writes: &[&[u8]], reads: &[usize]) -> usize {
    let (mut orders, mut choices) = (0, vec![]);
    loop {
        let mut ring = SplitRing::<2>::new();
        assert_eq!((ring.write(b"-"), ring.read(&mut [0])), (1, 1));
        let (mut writer, mut reader) = ring.split();
        let (mut written, mut read) = (Vec::<u8>::new(), Vec::<u8>::new());
        let mut write_all = || {
            for data in writes {
                let count = writer.write(data);
                written.extend(&data[..count]);
            }
        };
        let mut read_all = || {
            for size in reads {
                let mut into = vec![0; *size];
                let count = reader.read(&mut into);
                read.extend(&into[..count]);
            }
        };
        let mut made = play_sides(&choices, [&mut write_all, &mut read_all]);
        let mut into = [0; 3];
        let count = ring.read(&mut into);
        read.extend(&into[..count]);
        assert_eq!(read, written, "what was read, and what was written, in the order {made:?}");
        orders += 1;
        while made.last() == Some(&1) {
            made.pop();
        }
        match made.last_mut() {
            Some(side) => *side = 1,
            None => return orders,
        }
        choices = made;
    }
}

#[test]
fn two_sides_in_each_order_of_their_steps() {
    // Of seven steps and three there are 120 orders.
    assert!(play_all(&[b"ab", b"c"], &[3]) >= 120);
    play_all(&[b"ab"], &[1, 2]);
    play_all(&[b"abc"], &[2]);
}

/// Slices of each length, at each place of a small ring, with each number of bytes queued before.
#[test]
fn slices_over_the_end_of_the_storage() {
    for (at, queued, size) in (0..6)
        .flat_map(|at| (0..4).flat_map(move |queued| (0..5).map(move |size| (at, queued, size))))
    {
        let mut ring = SplitRing::<3>::new();
        let (mut writer, mut reader) = ring.split();
        for _ in 0..at {
            assert_eq!((writer.write(b"-"), reader.read(&mut [0])), (1, 1));
        }
        assert_eq!(writer.write(&b"abc"[..queued]), queued);
        assert_eq!((writer.len(), reader.len(), writer.is_empty()), (queued, queued, queued == 0));
        let count = writer.write(&b"defgh"[..size]);
        assert_eq!((count, reader.len()), (size.min(3 - queued), queued + count));
        let mut into = *b".....";
        let taken = reader.read(&mut into[..size]);
        assert_eq!((taken, writer.capacity()), (size.min(queued + count), reader.capacity()));
        let all: Vec<u8> = b"abc"[..queued].iter().chain(&b"defgh"[..count]).copied().collect();
        assert_eq!((&into[..taken], &into[taken..]), (&all[..taken], &b"....."[taken..]));
        assert_eq!((reader.len(), reader.is_empty()), (all.len() - taken, all.len() == taken));
        assert_eq!(
            (ring.len(), ring.capacity(), ring.is_empty()),
            (all.len() - taken, 3, all.len() == taken)
        );
    }
}

#[test]
fn a_ring_without_room_takes_nothing() {
    let ring = SplitRing::<0>::new();
    assert_eq!((ring.write(b"a"), ring.read(&mut [0])), (0, 0));
}
