//! Two zones on a Cortex-M4, without std and without an allocator: what their clocks show, when they change, and which instants a local time has.
//! Zones are constants in flash, and RAM has the stack alone, whose greatest size is printed, too. A debugger, here QEMU, prints.
#![no_std]
#![no_main]

use core::arch::asm;
use core::fmt::{self, Write};
use core::panic::PanicInfo;

use tz::{DateTime, TimeZoneRef};
use tz_zones::{america, europe};

const ZONES: [(&str, TimeZoneRef<'static>); 2] = [
    ("Europe/Paris", europe::PARIS),
    ("America/New_York", america::NEW_YORK),
];

/// What the clock of a board would say: 2026-10-25T00:59:59Z, a second before Paris sets its clocks back from 3:00 to 2:00.
const NOW: i64 = 1_792_889_999;

fn show(out: &mut impl Write) -> Result<(), tz::TzError> {
    for (name, zone) in ZONES {
        let now = DateTime::from_timespec(NOW, 0, zone)?;
        let change = zone.following(NOW).map_or(0, |it| it.unix_time());
        let mut slots = [None; 2];
        let found = DateTime::find_n(&mut slots, 2026, 10, 25, 2, 30, 0, 0, zone)?;
        let _ = writeln!(out, "{name} {now} {change} {}", found.count());
    }
    Ok(())
}

/// What the processor does at first, at an interrupt that cannot be masked, and at a fault. memory.ld puts it after the end of the stack.
#[used]
#[unsafe(link_section = ".vectors")]
static VECTORS: [extern "C" fn() -> !; 3] = [start, fail, fail];

/// The stack, of which the last words are in use when it is painted.
const STACK: *mut u32 = 0x2000_0000 as *mut u32;
const PAINTED: usize = 960;
const PAINT: u32 = 0x7A7A_7A7A;

extern "C" fn start() -> ! {
    (0..PAINTED).for_each(|word| unsafe { STACK.add(word).write_volatile(PAINT) });
    let shown = show(&mut Debugger);
    let is_free = |word: &usize| unsafe { STACK.add(*word).read_volatile() } == PAINT;
    let free = (0..PAINTED).take_while(is_free).count();
    let _ = writeln!(Debugger, "{} bytes of stack", 4096 - 4 * free);
    ask(EXIT, if shown.is_ok() { 0x20026 } else { 0 });
    fail()
}

extern "C" fn fail() -> ! {
    loop {
        ask(EXIT, 0);
    }
}

#[panic_handler]
fn panic(_: &PanicInfo) -> ! {
    fail()
}

/// Arm's semihosting: requests to a debugger.
const PUT: usize = 3;
const EXIT: usize = 0x18;

fn ask(request: usize, value: usize) {
    unsafe { asm!("bkpt 0xab", inout("r0") request => _, in("r1") value) };
}

struct Debugger;

impl Write for Debugger {
    fn write_str(&mut self, text: &str) -> fmt::Result {
        text.bytes()
            .for_each(|byte| ask(PUT, &raw const byte as usize));
        Ok(())
    }
}
