//! The lists of the Rust crate x509-parser, for entries.c to call: read, looked up as its users do, since it has no look-up of its own, and freed.

use std::slice;
use x509_parser::prelude::{CertificateRevocationList, FromDer};

/// Reads a list whose octets outlive it; null where it is refused.
///
/// # Safety
/// `at` points to `size` octets, which neither move nor change before the list is freed.
#[no_mangle]
pub unsafe extern "C" fn x509_peer_read(at: *const u8, size: usize) -> *mut CertificateRevocationList<'static> {
    let octets: &'static [u8] = slice::from_raw_parts(at, size);
    match CertificateRevocationList::from_der(octets) {
        Ok((_, list)) => Box::into_raw(Box::new(list)),
        Err(_) => std::ptr::null_mut(),
    }
}

/// The position of the first entry of this serial, or the greatest `usize`.
///
/// # Safety
/// `list` comes from `x509_peer_read`, and `at` points to `size` octets.
#[no_mangle]
pub unsafe extern "C" fn x509_peer_find(list: *const CertificateRevocationList<'static>, at: *const u8, size: usize) -> usize {
    let serial = slice::from_raw_parts(at, size);
    (*list).iter_revoked_certificates().position(|entry| entry.raw_serial() == serial).unwrap_or(usize::MAX)
}

/// Frees a list.
///
/// # Safety
/// `list` comes from `x509_peer_read`, and isn't used again.
#[no_mangle]
pub unsafe extern "C" fn x509_peer_free(list: *mut CertificateRevocationList<'static>) {
    drop(Box::from_raw(list));
}
