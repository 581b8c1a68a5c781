//! Any bytes as calls of the C interface, each answer compared with the second program's.
//!
//! The bytes are read as numbers that draw a scenario: its kind, its tables and its calls. What is drawn is small and near
//! together, so that prefixes repeat, lie inside each other and fill their table. Every call goes through `second::both`, which
//! compares the answer, the refusal with its place, and all that was lent. The safe crate's calls over rows hand everything on to
//! the library, so what the library is to refuse gets there.

mod lists;
mod tables;

use second::both::calls::{taken, Calls};
use second::random::Random;

/// The calls that some bytes stand for, made and compared: how many there were of each kind. A difference is a panic.
pub fn one(data: &[u8]) -> Calls {
    taken();
    let mut draw = Random::of_bytes(data);
    // each kind gets a share by what it finds in its time; calls on a large list take longest
    match draw.below(128) {
        0..=15 => lists::any(&mut draw),
        16..=31 => lists::agreeing(&mut draw),
        32..=55 => tables::sequence(draw),
        56..=63 => tables::download(draw),
        64..=79 => tables::image(&mut draw),
        80..=95 => tables::ranges(&mut draw),
        96..=111 => tables::chunk(&mut draw),
        112..=126 => tables::records(&mut draw),
        _ => lists::large(&mut draw),
    }
    taken()
}

/// A random input of up to 600 bytes. Half of them are small numbers, so that choices among few repeat.
pub fn random_input(random: &mut Random) -> Vec<u8> {
    let most = random.pick(&[8, 40, 200, 600]);
    let bound = random.pick(&[8, 256]);
    let mut data: Vec<u8> = (0..random.below(most)).map(|_| random.below(bound) as u8).collect();
    if let Some(first) = data.first_mut() {
        *first = random.number() as u8;
    }
    data
}

/// What libFuzzer calls with each of its inputs. A panic ends the process, since it cannot leave a C function.
///
/// # Safety
///
/// The pointer is to so many bytes.
#[no_mangle]
pub unsafe extern "C" fn LLVMFuzzerTestOneInput(data: *const u8, size: usize) -> i32 {
    // a pointer of no bytes may be null
    let data = if size == 0 {
        &[]
    } else {
        // SAFETY: as this function's own
        unsafe { std::slice::from_raw_parts(data, size) }
    };
    one(data);
    0
}

#[cfg(test)]
mod tests {
    use super::{one, random_input};
    use second::both::calls::{Calls, CALLS};
    use second::random::Random;

    #[test]
    fn each_call_is_accepted_and_gets_each_refusal() {
        let mut random = Random::new(1);
        let mut calls = Calls::default();
        for _ in 0..2000 {
            calls += one(&random_input(&mut random));
        }
        for (call, name, refusals) in CALLS {
            assert!(calls.of(call, 0) > 0, "{name} is never accepted");
            for &refusal in refusals {
                assert!(calls.of(call, refusal) > 0, "{name} never gets refusal {refusal}");
            }
        }
    }

    #[test]
    fn an_input_makes_the_same_calls_each_time() {
        let mut random = Random::new(2);
        for _ in 0..20 {
            let data = random_input(&mut random);
            let calls = one(&data);
            assert!(calls.total() > 0, "{data:x?}");
            assert_eq!(one(&data), calls, "{data:x?}");
        }
        assert!(one(&[]).total() > 0);
    }
}
