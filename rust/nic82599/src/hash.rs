//! The hash of receive side scaling.

use crate::error::Error;
use crate::handle;

/// Returns the RSS hash of an input under a key. The input consists of the addresses, followed by the ports if they are
/// hashed, in the frame's order. For TCP or UDP over IPv4 without options it is `frame[26..38]`; over IPv6 without
/// further headers it is `frame[22..58]`. docs/DESCRIPTORS.md lists the inputs by RSS type.
///
/// # Errors
///
/// [`Error::TooLong`] if the input is longer than 36 bytes.
///
/// ```
/// let mut key = [0; 40];
/// key[..4].copy_from_slice(&[0x6D, 0x5A, 0x56, 0xDA]); // in register 0 of RSSRK this is 0xDA56_5A6D
/// assert_eq!(nic82599::rss_hash(&key, &[0x80]), Ok(0x6D5A_56DA)); // the first bit selects the key's first 32 bits
/// assert_eq!(nic82599::rss_hash(&[0; 40], &[1, 2, 3]), Ok(0));
/// assert_eq!(nic82599::rss_hash(&[0; 40], &[0; 37]), Err(nic82599::Error::TooLong));
/// ```
pub fn rss_hash(key: &[u8; 40], input: &[u8]) -> Result<u32, Error> {
    handle::hash(key, input).ok_or(Error::TooLong)
}
