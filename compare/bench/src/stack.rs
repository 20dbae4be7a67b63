//! The deepest stack under a reading: the stack below the caller is painted, and after the reading the lowest place
//! that lost its paint is looked for. What a deepest function reserves and never writes is not seen; the closure that
//! calls the reading is counted with it, some 100 bytes.

use crate::sides::{SIDES, Side, Tables};
use crate::texts::Text;

/// Far more than any reading needs; one without an end would die at the guard page and not pass unseen.
const PAINTED: usize = 4 << 20;
const STACK: usize = PAINTED + (1 << 20);
/// Below the frame that paints, so that it does not paint over itself.
const GAP: usize = 512;
const PAINT: u64 = 0x5ca1_ab1e_0ddb_a115;

pub fn report(texts: &[Text], cases: &[Text]) {
    println!("Deepest stack in bytes");
    println!("{:16} {:>8} {:>8} {:>8}", "text", "strict", "survey", "Rust");
    for text in texts {
        let [strict, survey, rust] = SIDES.map(|side| in_a_thread(side, text));
        println!("{:16} {strict:8} {survey:8} {rust:8}", text.name);
    }
    for side in SIDES {
        let depths = texts.iter().chain(cases).map(|text| (in_a_thread(side, text), text));
        let (depth, text) = depths.reduce(|most, next| if next.0 > most.0 { next } else { most }).expect("a text");
        println!("most of these and {} cases, {}: {depth} ({})", cases.len(), side.name(), text.name);
    }
}

fn in_a_thread(side: Side, text: &Text) -> usize {
    let measure = || Tables::new().reading(side, &text.bytes, |read| depth(read));
    std::thread::scope(|scope| {
        let thread = std::thread::Builder::new().stack_size(STACK).spawn_scoped(scope, measure);
        thread.expect("a thread").join().expect("a reading")
    })
}

#[inline(never)]
fn depth(read: &mut dyn FnMut() -> bool) -> usize {
    let here = 0u64;
    let top = &raw const here as usize & !7;
    let bottom = top - PAINTED;
    // SAFETY: all of it is this thread's stack, below every frame in use (the gap is for what the loops call)
    let places = || (bottom..top - GAP).step_by(8).map(|place| place as *mut u64);
    places().for_each(|place| unsafe { place.write_volatile(PAINT) });
    std::hint::black_box(read());
    let lowest = places().find(|place| unsafe { place.read_volatile() } != PAINT);
    lowest.map_or(0, |place| top - place as usize)
}
