use crate::addresses::Addresses;

/// What gives an address a number.
pub(crate) trait Numbers {
    /// Returns the number of an address, or 0.
    fn number(&self, address: u128) -> u32;
}

/// Returns the sum, modulo 2^64, of the numbers of this many addresses, IPv4 and IPv6 ones in turn.
pub(crate) fn sum_of(numbers: &impl Numbers, count: u64) -> u64 {
    let mut addresses = Addresses::from_seed(1);
    let mut sum: u64 = 0;
    for k in 0..count {
        let address = if k % 2 == 0 {
            addresses.next_ipv4()
        } else {
            addresses.next_ipv6()
        };
        sum = sum.wrapping_add(u64::from(numbers.number(address)));
    }
    sum
}
