//! The keys of a run, one for each method.

use relay::{Key, Method};

use crate::random::Random;

/// The key of a method, which the seed decides. All methods have the same bytes, as many
/// of them as they take: so a datagram of another method is refused for its method alone.
pub fn key_of(method: Method, seed: u64) -> Key {
    let bytes = Random::new(!seed.rotate_left(8)).bytes(method.key_len());
    Key::new(method, &bytes).expect("as long as the method asks")
}

#[cfg(test)]
mod tests {
    use super::key_of;
    use relay::Method;

    #[test]
    fn every_method_has_a_key() {
        for method in Method::ALL {
            assert_eq!(key_of(method, 1).method(), method);
        }
    }
}
