//! inventory FILE..: of each DER certificate, on a line, its subject, its DNS names, the second after which it isn't valid, and its key.
//! rustc --edition 2021 -O -L build/lib -C link-arg=-Wl,-rpath,$PWD/build/lib -o inventory examples/rust/inventory.rs

use std::io::{self, Write};
use std::process::ExitCode;

/// Those calls of include/rushtrivet.h that the program needs. Outside of this module nothing is unsafe.
mod x509 {
    use std::marker::PhantomData;

    // ---- structs, field by field as the header has them

    /// rtv_bytes: octets of the buffer that was read. The lifetime is that of the buffer.
    #[repr(C)]
    #[derive(Clone, Copy)]
    pub struct Bytes<'a> {
        at: *const u8,
        length: usize,
        buffer: PhantomData<&'a [u8]>,
    }

    #[repr(C)]
    #[derive(Clone, Copy)]
    pub struct Certificate<'a> {
        pub whole: Bytes<'a>,
        pub rest: Bytes<'a>,
        pub signed_part: Bytes<'a>,
        pub serial: Bytes<'a>,
        pub issuer: Bytes<'a>,
        pub subject: Bytes<'a>,
        pub key_info: Bytes<'a>,
        pub key_algorithm: Bytes<'a>,
        pub key_bits: Bytes<'a>,
        pub signature_algorithm: Bytes<'a>,
        pub signature: Bytes<'a>,
        pub not_before: i64,
        pub not_after: i64,
        pub key_size: usize,
        pub extension_count: usize,
        pub version: u32,
    }

    #[repr(C)]
    #[derive(Clone, Copy)]
    pub struct Extension<'a> {
        pub oid: Bytes<'a>,
        pub value: Bytes<'a>,
        pub critical: u32,
    }

    #[repr(C)]
    #[derive(Clone, Copy)]
    pub struct GeneralName<'a> {
        pub id: Bytes<'a>,
        pub value: Bytes<'a>,
        pub tag: u32,
        pub readable: u32,
    }

    // ---- calls

    #[link(name = "rushtrivet")]
    extern "C" {
        fn rtv_version() -> u32;
        fn rtv_read_certificate<'a>(
            der: *const u8,
            length: usize,
            deep: bool,
            strict: bool,
            certificate: *mut Certificate<'a>,
            extensions: *mut Extension<'a>,
            room: usize,
            at: *mut usize,
        ) -> u32;
        fn rtv_read_general_names<'a>(
            value: *const u8,
            length: usize,
            names: *mut GeneralName<'a>,
            room: usize,
            count: *mut usize,
            at: *mut usize,
        ) -> u32;
        fn rtv_word(status: u32, text: *mut u8, room: usize) -> usize;
        fn rtv_name_text(name: *const u8, length: usize, text: *mut u8, room: usize, text_length: *mut usize, at: *mut usize) -> u32;
        fn rtv_oid_text(oid: *const u8, length: usize, text: *mut u8, room: usize, text_length: *mut usize) -> u32;
    }

    // ---- the same, safe: what is read is borrowed, and rows and texts grow to what the call tells

    const NONE: Bytes<'static> = Bytes { at: b"".as_ptr(), length: 0, buffer: PhantomData };
    const NO_EXTENSION: Extension<'static> = Extension { oid: NONE, value: NONE, critical: 0 };
    const NO_NAME: GeneralName<'static> = GeneralName { id: NONE, value: NONE, tag: 0, readable: 0 };
    const NO_CERTIFICATE: Certificate<'static> = Certificate {
        whole: NONE,
        rest: NONE,
        signed_part: NONE,
        serial: NONE,
        issuer: NONE,
        subject: NONE,
        key_info: NONE,
        key_algorithm: NONE,
        key_bits: NONE,
        signature_algorithm: NONE,
        signature: NONE,
        not_before: 0,
        not_after: 0,
        key_size: 0,
        extension_count: 0,
        version: 0,
    };

    impl<'a> Bytes<'a> {
        pub fn octets(self) -> &'a [u8] {
            // SAFETY: a window is never NULL, and lies in the buffer, which is borrowed for 'a.
            unsafe { std::slice::from_raw_parts(self.at, self.length) }
        }
    }

    /// A status that isn't RTV_OK, and the octet at which the buffer is refused.
    pub struct Refused {
        pub status: u32,
        pub at: usize,
    }

    impl Refused {
        pub fn word(&self) -> String {
            let text = text(|text, room, length| {
                // SAFETY: `text` has room for so many octets.
                *length = unsafe { rtv_word(self.status, text, room) };
                0
            });
            String::from_utf8_lossy(&text.unwrap_or_default()).into_owned()
        }
    }

    /// Whether the library has the structs that stand here: while the first number is 0, the second tells.
    pub fn is_of_this_header() -> bool {
        // SAFETY: it takes nothing.
        unsafe { rtv_version() / 100 == 2 }
    }

    /// All rows that `call` writes; it tells how many there are, and is asked again where there was no room for all.
    fn rows<T: Copy>(none: T, mut call: impl FnMut(*mut T, usize) -> Result<usize, Refused>) -> Result<Vec<T>, Refused> {
        let mut rows = vec![none; 16];
        loop {
            let count = call(rows.as_mut_ptr(), rows.len())?;
            if count <= rows.len() {
                rows.truncate(count);
                return Ok(rows);
            }
            rows.resize(count, none);
        }
    }

    /// The whole text that `call` writes, without the NUL behind it.
    fn text(mut call: impl FnMut(*mut u8, usize, &mut usize) -> u32) -> Result<Vec<u8>, u32> {
        let (mut text, mut length) = (vec![0; 128], 0);
        loop {
            let status = call(text.as_mut_ptr(), text.len(), &mut length);
            if status != 0 {
                return Err(status);
            }
            if length < text.len() {
                text.truncate(length);
                return Ok(text);
            }
            text.resize(length + 1, 0);
        }
    }

    fn refused(status: u32, at: usize) -> Result<(), Refused> {
        if status == 0 {
            Ok(())
        } else {
            Err(Refused { status, at })
        }
    }

    pub fn read_certificate(der: &[u8]) -> Result<(Certificate<'_>, Vec<Extension<'_>>), Refused> {
        let (mut it, mut at) = (NO_CERTIFICATE, 0);
        let extensions = rows(NO_EXTENSION, |rows, room| {
            // SAFETY: `rows` holds `room` valid rows, `it` is valid, and all windows live as long as `der`.
            let status = unsafe { rtv_read_certificate(der.as_ptr(), der.len(), false, false, &mut it, rows, room, &mut at) };
            refused(status, at).map(|()| it.extension_count)
        })?;
        Ok((it, extensions))
    }

    pub fn read_general_names(value: &[u8]) -> Result<Vec<GeneralName<'_>>, Refused> {
        let (mut count, mut at) = (0, 0);
        rows(NO_NAME, |rows, room| {
            // SAFETY: as above.
            let status = unsafe { rtv_read_general_names(value.as_ptr(), value.len(), rows, room, &mut count, &mut at) };
            refused(status, at).map(|()| count)
        })
    }

    pub fn name_text(name: &[u8]) -> Result<Vec<u8>, u32> {
        let mut at = 0;
        // SAFETY: `text` has room for so many octets.
        text(|text, room, length| unsafe { rtv_name_text(name.as_ptr(), name.len(), text, room, length, &mut at) })
    }

    pub fn oid_text(oid: &[u8]) -> Result<Vec<u8>, u32> {
        // SAFETY: `text` has room for so many octets.
        text(|text, room, length| unsafe { rtv_oid_text(oid.as_ptr(), oid.len(), text, room, length) })
    }
}

const ALTERNATIVE_NAMES: [u8; 3] = [0x55, 0x1d, 0x11]; // 2.5.29.17

/// The second as 2027-12-24T14:31:06Z. Years are counted from March on, so that a leap day is the last of its year.
fn date_time(seconds: i64) -> String {
    let days = seconds.div_euclid(86_400) + 719_468; // since March 1 of the year 0
    let second = seconds.rem_euclid(86_400);
    let (era, day) = (days.div_euclid(146_097), days.rem_euclid(146_097)); // 400 years are an era
    let year = (day - day / 1_460 + day / 36_524 - day / 146_096) / 365;
    let day = day - (365 * year + year / 4 - year / 100);
    let month = (5 * day + 2) / 153;
    let day = day - (153 * month + 2) / 5 + 1;
    let (year, month) = if month < 10 { (year, month + 3) } else { (year + 1, month - 9) };
    let (hour, minute, second) = (second / 3_600, second / 60 % 60, second % 60);
    format!("{:04}-{month:02}-{day:02}T{hour:02}:{minute:02}:{second:02}Z", era * 400 + year)
}

fn put_hosts(out: &mut impl Write, value: &[u8]) -> io::Result<()> {
    let names = x509::read_general_names(value).unwrap_or_default(); // of a value that is none, no name
    for name in names.iter().filter(|name| name.tag == 2 && name.readable == 1) {
        out.write_all(b" DNS:")?;
        out.write_all(name.value.octets())?;
    }
    Ok(())
}

/// Whether the certificate was taken. Names are octets here: they may hold anything.
fn inventory(out: &mut impl Write, der: &[u8]) -> io::Result<bool> {
    let (certificate, extensions) = match x509::read_certificate(der) {
        Ok(found) => found,
        Err(refused) => {
            writeln!(out, "refused at octet {}: {}", refused.at, refused.word())?;
            return Ok(false);
        }
    };
    out.write_all(&x509::name_text(certificate.subject.octets()).unwrap_or_default())?;
    for extension in extensions.iter().filter(|extension| extension.oid.octets() == ALTERNATIVE_NAMES) {
        put_hosts(out, extension.value.octets())?;
    }
    write!(out, " until {}, ", date_time(certificate.not_after))?;
    out.write_all(&x509::oid_text(certificate.key_algorithm.octets()).unwrap_or_default())?;
    writeln!(out, " of {} bits", certificate.key_size)?;
    Ok(true)
}

fn main() -> ExitCode {
    if !x509::is_of_this_header() {
        eprintln!("inventory: another version of librushtrivet");
        return ExitCode::from(2);
    }
    let (mut out, mut code) = (io::stdout().lock(), 0);
    for file in std::env::args_os().skip(1) {
        let told = std::fs::read(&file).and_then(|der| inventory(&mut out, &der));
        match told {
            Ok(taken) => code |= u8::from(!taken),
            Err(error) => {
                eprintln!("{}: {error}", file.to_string_lossy());
                return ExitCode::from(2);
            }
        }
    }
    ExitCode::from(code)
}
