//! The features that only the C library provides: reasons why nothing happens, recordings, and memory in place.

use std::ffi::CString;

use crate::in_place::InPlace;
use crate::nic::Nic;

impl Nic {
    /// Converts the controller into one to which you can lend your program's own memory.
    pub fn in_place<'a>(self) -> InPlace<'a> {
        InPlace::new(self)
    }

    // --- why nothing happens ---

    /// Explains what blocks pending work, one reason per line: for each waiting frame, each queue that isn't idle and
    /// each cause that sends no message. It also lists which frames were dropped. The result is empty if nothing is
    /// waiting and nothing was dropped. The call changes nothing; it copies lent memory while it runs. Use it in a
    /// failing test: `assert_eq!(nic.read(RDH.at(3)), 1, "{}", nic.why())`. With the environment variable
    /// NIC82599_TELL=1, faults, drops and stray accesses are reported on standard error when they happen.
    ///
    /// ```
    /// use nic82599::{regs, Nic, Sizes};
    ///
    /// let nic = Nic::open(Sizes::default())?;
    /// nic.write(regs::EICS, 1 << 5);
    /// let masked = "int pf: EICR 0x00000020 (RTxQ[5]), EIMS 0x00000000: no cause is enabled";
    /// assert_eq!(nic.why().lines().next(), Some(masked));
    /// # Ok::<(), nic82599::Error>(())
    /// ```
    pub fn why(&self) -> String {
        let mut room = vec![0; 4096];
        let length = self.handle().calls().why(&mut room);
        if length >= room.len() {
            room.resize(length + 1, 0);
            self.handle().calls().why(&mut room);
        }
        room.truncate(length);
        let text = String::from_utf8_lossy(&room);
        text.trim_end().to_owned()
    }

    /// Adds a comment to this controller's recording, before the next event. Does nothing unless it is recorded
    /// ([`record`](crate::record)). The text is truncated to 200 bytes, and `?` replaces each byte that isn't printable
    /// ASCII.
    pub fn note(&self, text: &str) {
        self.handle().calls().note(&CString::new(text.replace('\0', "?")).unwrap_or_default());
    }
}
