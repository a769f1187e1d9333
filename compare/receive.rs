//! The receive path of a TCP socket without std: two segments that come in the wrong order, the blocks of a selective
//! acknowledgement, a read. `sizes.py` builds it over a ring and an assembler of each side, joined as in smoltcp's
//! socket, with `--cfg apart` by `add` and `remove_front` in two calls, and with `--cfg receiver` over the crate's
//! `Receiver`, by `keep`, or with `--cfg lists` by `segment`. With `--cfg emulated` it runs on a Cortex-M4 under QEMU.
#![no_std]
#![no_main]
#![allow(unexpected_cfgs)]

#[panic_handler]
fn panic(_: &core::panic::PanicInfo) -> ! {
    loop {}
}

#[cfg(not(receiver))]
mod path {
    use smoltcp::storage::{Assembler, RingBuffer};

    pub struct Path<'a> {
        ring: RingBuffer<'a, u8>,
        assembler: Assembler,
        first: u32,
    }

    impl<'a> Path<'a> {
        pub fn new(storage: &'a mut [u8]) -> Self {
            Path { ring: RingBuffer::new(storage), assembler: Assembler::new(), first: 0 }
        }

        fn next(&self) -> u32 {
            self.first.wrapping_add(self.ring.len() as u32)
        }

        #[inline(never)]
        pub fn segment(&mut self, number: u32, bytes: &[u8]) -> bool {
            let distance = number.wrapping_sub(self.next()) as i32;
            let (skipped, offset) = match distance {
                ..0 => (distance.unsigned_abs() as usize, 0),
                _ => (0, distance as usize),
            };
            let window = self.ring.window();
            if skipped >= bytes.len() || offset >= window {
                return true;
            }
            let part = &bytes[skipped..];
            let part = &part[..part.len().min(window - offset)];
            #[cfg(not(apart))]
            let Ok(front) = self.assembler.add_then_remove_front(offset, part.len()) else { return false };
            #[cfg(apart)]
            let Ok(front) = self.assembler.add(offset, part.len()).map(|()| self.assembler.remove_front()) else {
                return false;
            };
            let _ = self.ring.write_unallocated(offset, part);
            if front != 0 {
                self.ring.enqueue_unallocated(front);
            }
            true
        }

        #[inline(never)]
        pub fn read(&mut self, into: &mut [u8]) -> usize {
            let count = self.ring.dequeue_slice(into);
            self.first = self.first.wrapping_add(count as u32);
            count
        }

        #[inline(never)]
        pub fn blocks(&self, into: &mut [(u32, u32); 3]) -> usize {
            let (next, mut count) = (self.next(), 0);
            for (to, (start, end)) in into.iter_mut().zip(self.assembler.iter_data()) {
                *to = (next.wrapping_add(start as u32), next.wrapping_add(end as u32));
                count += 1;
            }
            count
        }

        pub fn window(&self) -> usize {
            self.ring.window()
        }
    }
}

#[cfg(receiver)]
mod path {
    use smoltcp::receiver::Receiver;
    use smoltcp::sequence_number::SequenceNumber;

    pub struct Path<'a>(Receiver<'a>);

    impl<'a> Path<'a> {
        pub fn new(storage: &'a mut [u8]) -> Self {
            Path(Receiver::new(storage))
        }

        #[inline(never)]
        pub fn segment(&mut self, number: u32, bytes: &[u8]) -> bool {
            let pos = SequenceNumber::new(number).position(SequenceNumber::new(0), self.0.next());
            #[cfg(not(lists))]
            return pos.is_none_or(|pos| self.0.keep(pos, bytes).is_ok());
            #[cfg(lists)]
            return pos.is_none_or(|pos| self.0.segment(pos, bytes).is_ok());
        }

        #[inline(never)]
        pub fn read(&mut self, into: &mut [u8]) -> usize {
            self.0.read(into)
        }

        #[inline(never)]
        pub fn blocks(&self, into: &mut [(u32, u32); 3]) -> usize {
            let mut count = 0;
            for (to, (start, end)) in into.iter_mut().zip(self.0.held()) {
                *to = (start as u32, end as u32);
                count += 1;
            }
            count
        }

        pub fn window(&self) -> usize {
            self.0.window()
        }
    }
}

#[inline(never)]
fn run(data: &[u8], rounds: usize) -> usize {
    let (mut storage, mut into, mut blocks) = ([0; 128], [0; 32], [(0, 0); 3]);
    let mut path = path::Path::new(&mut storage);
    let (mut sum, mut at) = (0, 0u32);
    for round in 0..rounds {
        let ahead = if round % 2 == 0 { 16 } else { 0 };
        sum += path.segment(at.wrapping_add(ahead), &data[..16]) as usize;
        sum += path.blocks(&mut blocks);
        sum += path.segment(at.wrapping_add(16 - ahead), &data[..16]) as usize;
        at = at.wrapping_add(32);
        sum += path.read(&mut into) + path.window();
    }
    sum
}

#[cfg(not(emulated))]
#[no_mangle]
pub extern "C" fn _start() -> ! {
    use core::hint::black_box;
    black_box(run(black_box(&[7; 40]), black_box(10)));
    loop {}
}

/// Prints the ticks of a timer, of 40 instructions each, that 1,000 rounds take, and the bytes of stack that were
/// written.
#[cfg(emulated)]
mod emulated {
    use core::arch::asm;
    use core::hint::black_box;

    extern "C" {
        static stack_top: u32;
    }

    /// What the processor reads at reset.
    #[repr(C)]
    struct Vectors(*const u32, [extern "C" fn() -> !; 15]);

    // SAFETY: nothing writes it.
    unsafe impl Sync for Vectors {}

    #[link_section = ".vectors"]
    #[no_mangle]
    static VECTORS: Vectors = Vectors(&raw const stack_top, [reset; 15]);

    const TIMER: *mut u32 = 0xe000_e010 as *mut u32;
    const LOWEST: u32 = 0x2000_8000;
    const UNWRITTEN: u32 = 0x5a5a_5a5a;

    fn semihosting(call: u32, word: u32) {
        // SAFETY: the emulator reads what it is asked to print.
        unsafe { asm!("bkpt 0xab", inout("r0") call => _, in("r1") word) }
    }

    fn print(number: u32) {
        let (mut digits, mut at, mut rest) = ([b' '; 11], 10, number);
        while at == 10 || rest > 0 {
            at -= 1;
            digits[at] = b'0' + (rest % 10) as u8;
            rest /= 10;
        }
        for byte in &digits[at..] {
            semihosting(3, &raw const *byte as u32);
        }
    }

    fn ticks() -> u32 {
        // SAFETY: a register of the processor.
        unsafe { 0xff_ffff - TIMER.add(2).read_volatile() }
    }

    #[inline(never)]
    fn rounds(count: usize) -> usize {
        super::run(black_box(&[7; 40]), black_box(count))
    }

    #[no_mangle]
    extern "C" fn reset() -> ! {
        let here = 0u32;
        let top = &raw const here as u32 - 256;
        // SAFETY: registers of the processor, and memory below what the stack has.
        unsafe {
            (0xe000_ed88 as *mut u32).write_volatile(0xf << 20);
            TIMER.add(1).write_volatile(0xff_ffff);
            TIMER.add(2).write_volatile(0);
            TIMER.write_volatile(5);
            while TIMER.add(2).read_volatile() == 0 {}
            for at in (LOWEST..top).step_by(4) {
                (at as *mut u32).write_volatile(UNWRITTEN);
            }
        }
        let begin = ticks();
        black_box(rounds(100));
        let between = ticks();
        let sum = black_box(rounds(1100));
        let end = ticks();
        let mut low = LOWEST;
        // SAFETY: as above.
        while unsafe { (low as *const u32).read_volatile() } == UNWRITTEN {
            low += 4;
        }
        print((end - between).wrapping_sub(between - begin));
        print(top - low);
        print(sum as u32);
        semihosting(0x18, 0x2_0026);
        loop {}
    }
}
