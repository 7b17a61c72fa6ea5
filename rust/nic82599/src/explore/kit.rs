//! A kit for scenarios, like `nicx_numbered_frame`, `nicx_flow` and `nicx_mailbox` in C.

use super::{raw, Begin, Bus};

/// Builds a frame of 60 to 16,384 bytes in which each byte after the header depends on the number. Returns `None` for
/// another length.
pub fn numbered_frame(length: usize, number: u32) -> Option<Vec<u8>> {
    let mut frame = vec![0; length];
    raw::numbered_frame(&mut frame, number).then_some(frame)
}

/// Returns the number of a numbered frame, or of a [`Flow`]'s frame. Returns `None` for any other frame, and if a byte
/// doesn't match the number.
pub fn frame_number(frame: &[u8]) -> Option<u32> {
    Some(raw::frame_number(frame)).filter(|it| *it != u32::MAX)
}

/// The protocol of a flow.
#[derive(Clone, Copy, Debug, PartialEq, Eq)]
pub enum Protocol {
    /// TCP, with ports.
    Tcp,
    /// UDP, with ports.
    Udp,
    /// Another protocol, by its number, without ports.
    Other(u8),
}

/// An IPv4 flow.
#[derive(Clone, Copy, Debug, PartialEq, Eq)]
pub struct Flow {
    /// The source address.
    pub from: u32,
    /// The destination address.
    pub to: u32,
    /// The source port.
    pub from_port: u16,
    /// The destination port.
    pub to_port: u16,
    /// The protocol.
    pub protocol: Protocol,
}

impl Flow {
    fn raw(&self) -> raw::RawFlow {
        let protocol = match self.protocol {
            Protocol::Tcp => 6,
            Protocol::Udp => 17,
            Protocol::Other(number) => number,
        };
        let Flow { from, to, from_port, to_port, .. } = *self;
        raw::RawFlow { from, to, from_port, to_port, protocol }
    }

    /// Builds a frame of this flow, of 60 to 1,518 bytes, with its number and valid checksums. Returns `None` for
    /// another length.
    pub fn frame(&self, length: usize, number: u32) -> Option<Vec<u8>> {
        let mut frame = vec![0; length];
        raw::flow_frame(&mut frame, &self.raw(), number).then_some(frame)
    }
}

impl<S: 'static> Begin<S> {
    /// Names `count` numbered frames, the first with number 0. Returns false if the length isn't 60 to 16,384 bytes.
    pub fn frames(&self, count: u32, length: usize) -> bool {
        let frames: Option<Vec<_>> = (0..count).map(|it| numbered_frame(length, it)).collect();
        frames.map(|it| it.iter().for_each(|frame| self.frame(frame))).is_some()
    }
}

impl Bus {
    /// Returns a flow's hash and the queue of its frames, under the current MRQC, RSSRK and RETA. The hash is 0 if none
    /// is computed. The queue is 0 if bits 3:0 of MRQC aren't 1. The call isn't a point.
    pub fn rss(&self, flow: &Flow) -> (u32, u16) {
        raw::rss(&flow.raw())
    }

    /// Sends to a virtual function's mailbox as the PF's driver: waits until the mailbox is free, takes it, writes at
    /// most 16 words, and signals the function.
    pub fn host_sends(&self, vf: u8, words: &[u32]) {
        raw::host_sends(vf, words);
    }

    /// Returns whether the function has sent a message; each message is reported once. If so, reads as many words as
    /// `words` holds and acknowledges the message.
    pub fn host_receives(&self, vf: u8, words: &mut [u32]) -> bool {
        raw::host_receives(vf, words)
    }

    /// Returns whether the function has acknowledged the PF driver's message; each acknowledgement is reported once.
    pub fn host_is_acked(&self, vf: u8) -> bool {
        raw::host_is_acked(vf)
    }
}

/// The function's side of its mailbox. It keeps the bits that a read clears.
pub struct Mailbox {
    raw: raw::RawMailbox,
}

impl std::fmt::Debug for Mailbox {
    fn fmt(&self, f: &mut std::fmt::Formatter<'_>) -> std::fmt::Result {
        f.debug_struct("Mailbox").field("vf", &self.raw.vf).finish_non_exhaustive()
    }
}

impl Mailbox {
    /// Creates the mailbox of a virtual function.
    pub fn new(vf: u8) -> Mailbox {
        Mailbox { raw: raw::RawMailbox { vf, seen: 0 } }
    }

    /// Waits until the mailbox is free, takes it, writes at most 16 words, and signals the PF's driver.
    pub fn send(&mut self, _bus: &Bus, words: &[u32]) {
        raw::function_sends(&mut self.raw, words);
    }

    /// Returns whether the PF's driver has sent a message; each message is reported once. If so, reads as many words as
    /// `words` holds and acknowledges the message.
    pub fn receive(&mut self, _bus: &Bus, words: &mut [u32]) -> bool {
        raw::function_receives(&mut self.raw, words)
    }

    /// Returns whether the PF's driver has acknowledged the function's message; each acknowledgement is reported once.
    pub fn is_acked(&mut self, _bus: &Bus) -> bool {
        raw::function_is_acked(&mut self.raw)
    }
}
