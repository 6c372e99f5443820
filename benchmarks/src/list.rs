//! The plain window's peer in Rust: the accepted numbers of one life in a list, looked through at each step. Its functions are called where
//! build.rs has linked them, its list is the caller's too.

const HELD: usize = 4096;
const WINDOW: u64 = 64;

/// The words of `tallowbrim_plain_list`.
#[repr(C)]
#[derive(Clone, Copy)]
pub struct List {
    count: u64,
    numbers: [u64; HELD],
}

impl List {
    pub const EMPTY: List = List { count: 0, numbers: [0; HELD] };

    fn accepted(&self) -> &[u64] {
        &self.numbers[..HELD.min(self.count as usize)]
    }
}

fn highest(accepted: &[u64]) -> u64 {
    accepted.iter().copied().max().unwrap_or(0)
}

#[no_mangle]
pub extern "C" fn rust_plain_step(list: &mut List, number: u32, integrity: bool, rise: &mut u64) -> u32 {
    let number = u64::from(number);
    let accepted = list.accepted();
    let highest = highest(accepted);
    if number == 0 || number + WINDOW <= highest {
        return 8197;
    }
    if accepted.contains(&number) {
        return 8194;
    }
    if !integrity {
        return 24;
    }
    let count = accepted.len();
    if count == HELD {
        return 8202;
    }
    list.numbers[count] = number;
    list.count = count as u64 + 1;
    *rise = number.saturating_sub(highest);
    0
}

#[no_mangle]
pub extern "C" fn rust_plain_loss_line(list: &List, out: &mut [u64; 3]) -> u32 {
    let accepted = list.accepted();
    let highest = highest(accepted);
    let span = highest.min(WINDOW);
    let last = highest - span + 1..=highest;
    *out = [highest, span, last.filter(|number| accepted.contains(number)).count() as u64];
    0
}
