//! Document 01, "The plan": the odd primes from 3 to 251, and the inverses
//! that "The store" and "The written program" need of them.

/// Whether p is an odd prime from 3 to 251: odd, and no d with 1 < d < p
/// divides it.
pub fn is_odd_prime(p: u64) -> bool {
    (3..=251).contains(&p) && p % 2 == 1 && (2..p).all(|d| !p.is_multiple_of(d))
}

/// The residue that times a leaves 1 modulo p, found by trying them all.
///
/// # Panics
/// Where there is none, which for a prime p means that p divides a.
pub fn inverse(p: usize, a: usize) -> usize {
    (1..p)
        .find(|b| a * b % p == 1)
        .expect("a residue other than 0 of a prime has an inverse")
}

#[cfg(test)]
mod tests {
    use super::*;

    #[test]
    fn there_are_53_odd_primes_up_to_251() {
        let primes: Vec<u64> = (0..100_000).filter(|&p| is_odd_prime(p)).collect();
        assert_eq!(primes.len(), 53);
        assert_eq!(primes[..6], [3, 5, 7, 11, 13, 17]);
        assert_eq!(primes[50..], [239, 241, 251]);
        assert!(!is_odd_prime(u64::MAX));
    }

    #[test]
    fn an_inverse_times_its_residue_leaves_1() {
        for p in (3..=251).filter(|&p| is_odd_prime(p as u64)) {
            for a in 1..p {
                assert_eq!(a * inverse(p, a) % p, 1);
            }
        }
    }
}
