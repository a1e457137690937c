//! A function of `spiral-fast --name forward`, or of `library.py forward`, whose words have 64 bits.

include!(concat!(env!("OUT_DIR"), "/sizes.rs"));

/// An array that begins at a cache line.
#[repr(align(64))]
struct Aligned<const N: usize>([u64; N]);

extern "C" {
    fn forward(out: *mut u64, given: *const u64, work: *mut u64);
}

/// The transform of the numbers, each reduced below the modulus first.
pub fn transform(given: &[u64; SIZE]) -> [u64; SIZE] {
    let (mut out, mut inside) = (Box::new(Aligned([0; WORDS])), Box::new(Aligned([0; WORDS])));
    let mut work = Box::new(Aligned([0; WORK]));
    for (word, number) in inside.0.iter_mut().zip(given) {
        *word = number % MODULUS as u64;
    }
    // The arrays are as long as the header asks, and apart.
    unsafe { forward(out.0.as_mut_ptr(), inside.0.as_ptr(), work.0.as_mut_ptr()) };
    out.0[..SIZE].try_into().expect("WORDS is at least SIZE")
}
