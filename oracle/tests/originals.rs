//! The two originals are compiled as they are: SHA-256 (FIPS 180-4, written
//! out here) of the bytes that the build copied, against the recorded ones of
//! deno_graph 0.111.1.

const SWC_HELPERS: &[u8] =
  include_bytes!(concat!(env!("OUT_DIR"), "/swc_helpers.rs"));
const TRANSFORM_DTS: &[u8] =
  include_bytes!(concat!(env!("OUT_DIR"), "/transform_dts.rs"));

/// The first 32 bits of the fractional parts of a root of the first primes.
fn fractions(count: usize, root: fn(f64) -> f64, power: u32) -> Vec<u32> {
  let primes = (2u64..).filter(|n| (2..*n).all(|d| n % d != 0));
  primes
    .take(count)
    .map(|prime| {
      // An estimate, then the exact integer below prime^(1/power) * 2^32.
      let target = (prime as u128) << 96;
      let mut guess = (root(prime as f64) * 4294967296.0) as u128;
      let cut = |n: u128| match power {
        2 => n * n <= (prime as u128) << 64,
        _ => n * n * n <= target,
      };
      while !cut(guess) {
        guess -= 1;
      }
      while cut(guess + 1) {
        guess += 1;
      }
      guess as u32
    })
    .collect()
}

fn sha256(bytes: &[u8]) -> String {
  let constants = fractions(64, f64::cbrt, 3);
  let mut state = fractions(8, f64::sqrt, 2);
  let mut message = bytes.to_vec();
  message.push(0x80);
  while message.len() % 64 != 56 {
    message.push(0);
  }
  message.extend((bytes.len() as u64 * 8).to_be_bytes());
  for block in message.chunks(64) {
    let mut w: Vec<u32> = block
      .chunks(4)
      .map(|word| u32::from_be_bytes(word.try_into().unwrap()))
      .collect();
    for t in 16..64 {
      let (a, b) = (w[t - 15], w[t - 2]);
      let low = a.rotate_right(7) ^ a.rotate_right(18) ^ (a >> 3);
      let high = b.rotate_right(17) ^ b.rotate_right(19) ^ (b >> 10);
      let sum = w[t - 16].wrapping_add(low).wrapping_add(w[t - 7]);
      w.push(sum.wrapping_add(high));
    }
    let mut v = state.clone();
    for t in 0..64 {
      let e = v[4];
      let high = e.rotate_right(6) ^ e.rotate_right(11) ^ e.rotate_right(25);
      let choice = (e & v[5]) ^ (!e & v[6]);
      let first = v[7]
        .wrapping_add(high)
        .wrapping_add(choice)
        .wrapping_add(constants[t])
        .wrapping_add(w[t]);
      let a = v[0];
      let low = a.rotate_right(2) ^ a.rotate_right(13) ^ a.rotate_right(22);
      let most = (a & v[1]) ^ (a & v[2]) ^ (v[1] & v[2]);
      v.rotate_right(1);
      v[0] = first.wrapping_add(low).wrapping_add(most);
      v[4] = v[4].wrapping_add(first);
    }
    for (word, add) in state.iter_mut().zip(v) {
      *word = word.wrapping_add(add);
    }
  }
  state.iter().map(|word| format!("{word:08x}")).collect()
}

#[test]
fn sha256_of_a_known_text() {
  assert_eq!(
    sha256(b"abc"),
    "ba7816bf8f01cfea414140de5dae2223b00361a396177a9cb410ff61f20015ad"
  );
}

#[test]
fn the_originals_are_unchanged() {
  assert_eq!(
    sha256(SWC_HELPERS),
    "75db4e9dfbd269d327176aab817bcc174edf738742875bfc9781572d110c254e"
  );
  assert_eq!(
    sha256(TRANSFORM_DTS),
    "a569b6d17ab229667b418390e6c32dded09fb6942661cacaaa0bea420e312d06"
  );
}
