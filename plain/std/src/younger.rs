//! Methods of std that are younger than the oldest Rust that builds this. Where std has them, its own are called.

/// Of `Option`.
pub trait OptionYounger<T> {
    /// As std's.
    fn is_some_and(self, f: impl FnOnce(T) -> bool) -> bool;
}
impl<T> OptionYounger<T> for Option<T> {
    fn is_some_and(self, f: impl FnOnce(T) -> bool) -> bool {
        match self { Some(x) => f(x), None => false }
    }
}
/// Of slices.
pub trait SliceYounger<T> {
    /// As std's.
    fn split_first_chunk<const N: usize>(&self) -> Option<(&[T; N], &[T])>;
}
impl<T> SliceYounger<T> for [T] {
    fn split_first_chunk<const N: usize>(&self) -> Option<(&[T; N], &[T])> {
        if self.len() < N { return None; }
        let (a, b) = self.split_at(N);
        Some((std::convert::TryFrom::try_from(a).ok()?, b))
    }
}
/// Of addresses.
pub trait V6Younger { /// As std's.
    fn from_octets(o: [u8; 16]) -> Self; }
impl V6Younger for std::net::Ipv6Addr { fn from_octets(o: [u8; 16]) -> Self { o.into() } }
/// Of addresses.
pub trait V4Younger { /// As std's.
    fn to_bits(self) -> u32; }
impl V4Younger for std::net::Ipv4Addr { fn to_bits(self) -> u32 { self.into() } }
/// Of numbers.
pub trait U32Younger { /// As std's.
    fn cast_signed(self) -> i32; }
impl U32Younger for u32 { fn cast_signed(self) -> i32 { self as i32 } }
/// Of texts.
pub trait StrYounger { /// As std's.
    fn from_utf8(bytes: &[u8]) -> Result<&str, std::str::Utf8Error>; }
impl StrYounger for str { fn from_utf8(bytes: &[u8]) -> Result<&str, std::str::Utf8Error> { std::str::from_utf8(bytes) } }
