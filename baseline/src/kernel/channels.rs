//! Channels: their sessions, and the calls that write and read messages in the message memory, which the caller keeps and lends.

use super::{
    Answer, Kernel, Refusal, CHANNELS, FEWEST_BUFFERS, LONGEST_MESSAGE, MEMORY_SIZE, MOST_BUFFERS,
    TASKS,
};
use std::ops::Range;

pub type Memory = [u8; MEMORY_SIZE];

/// The number of a channel, as a caller hands it in: any number.
#[derive(Clone, Copy)]
pub struct ChannelNo(pub u64);

/// What a task has on a channel; a write or a reading has its buffer.
#[derive(Clone, Copy, PartialEq, Eq)]
pub enum Session {
    Closed,
    Write(u8),
    Reading(u8),
}

#[derive(Clone, Copy, PartialEq, Eq)]
pub struct Channel {
    /// Of a message, in bytes; 0 where the channel is unused.
    pub size: u16,
    pub buffers: u8,
    pub latest: Option<u8>,
    /// One for each task.
    pub sessions: [Session; TASKS],
}

impl Channel {
    pub const UNUSED: Channel = Channel {
        size: 0,
        buffers: 0,
        latest: None,
        sessions: [Session::Closed; TASKS],
    };

    /// The lowest buffer that is not latest, not read and not being written.
    fn free_buffer(&self) -> Option<u8> {
        let mut taken = self.latest.map_or(0, |latest| 1u32 << latest);
        for session in self.sessions {
            if let Session::Write(buffer) | Session::Reading(buffer) = session {
                taken |= 1 << buffer;
            }
        }
        let lowest = taken.trailing_ones() as u8;
        (lowest < self.buffers).then_some(lowest)
    }
}

impl Kernel {
    pub fn open_channel(&mut self, size: usize, buffers: usize) -> Answer {
        self.going()?;
        if !(1..=LONGEST_MESSAGE).contains(&size)
            || !(FEWEST_BUFFERS..=MOST_BUFFERS).contains(&buffers)
        {
            return Err(Refusal::OutsideSizes);
        }
        let channel = self
            .channels
            .iter()
            .position(|channel| channel.size == 0)
            .ok_or(Refusal::NoRoom)?;
        self.channels[channel] = Channel {
            size: size as u16,
            buffers: buffers as u8,
            ..Channel::UNUSED
        };
        Ok(channel as i64)
    }

    pub fn begin_write(&mut self, channel: ChannelNo, memory: &mut Memory) -> Answer {
        self.going()?;
        let channel = self.channel(channel)?;
        self.no_session(channel)?;
        let buffer = self.channels[channel]
            .free_buffer()
            .ok_or(Refusal::NoRoom)?;
        memory[self.message(channel, buffer)].fill(0);
        *self.session(channel) = Session::Write(buffer);
        Ok(0)
    }

    pub fn piece(
        &self,
        channel: ChannelNo,
        offset: usize,
        bytes: &[u8],
        memory: &mut Memory,
    ) -> Answer {
        self.going()?;
        let channel = self.channel(channel)?;
        let buffer = self.written(channel)?;
        memory[self.message(channel, buffer)]
            .get_mut(offset..)
            .and_then(|rest| rest.get_mut(..bytes.len()))
            .ok_or(Refusal::OutsideSizes)?
            .copy_from_slice(bytes);
        Ok(0)
    }

    pub fn put(&mut self, channel: ChannelNo) -> Answer {
        self.going()?;
        let channel = self.channel(channel)?;
        let buffer = self.written(channel)?;
        self.channels[channel].latest = Some(buffer);
        *self.session(channel) = Session::Closed;
        Ok(0)
    }

    pub fn begin_reading(&mut self, channel: ChannelNo) -> Answer {
        self.going()?;
        let channel = self.channel(channel)?;
        self.no_session(channel)?;
        let latest = self.channels[channel].latest.ok_or(Refusal::NothingPut)?;
        *self.session(channel) = Session::Reading(latest);
        Ok(0)
    }

    /// The message that the running task's reading holds, a part of the memory; refused, the empty part at its start.
    pub fn showing<'a>(&self, channel: ChannelNo, memory: &'a Memory) -> (&'a [u8], Answer) {
        self.screen(channel, memory, &memory[..0])
    }

    /// The same; refused, the stand-by text.
    pub fn screen<'a>(
        &self,
        channel: ChannelNo,
        memory: &'a Memory,
        standby: &'a [u8],
    ) -> (&'a [u8], Answer) {
        match self.held(channel) {
            Ok(message) => (&memory[message], Ok(0)),
            Err(refusal) => (standby, Err(refusal)),
        }
    }

    pub fn close(&mut self, channel: ChannelNo) -> Answer {
        self.going()?;
        let channel = self.channel(channel)?;
        self.read(channel)?;
        *self.session(channel) = Session::Closed;
        Ok(0)
    }

    /// Where the message stands that the running task's reading holds.
    fn held(&self, channel: ChannelNo) -> Result<Range<usize>, Refusal> {
        self.going()?;
        let channel = self.channel(channel)?;
        let buffer = self.read(channel)?;
        Ok(self.message(channel, buffer))
    }

    /// Where the message of a buffer stands in the memory.
    fn message(&self, channel: usize, buffer: u8) -> Range<usize> {
        let start = LONGEST_MESSAGE * (MOST_BUFFERS * channel + usize::from(buffer));
        start..start + usize::from(self.channels[channel].size)
    }

    /// -6, or the place of a used channel.
    fn channel(&self, ChannelNo(number): ChannelNo) -> Result<usize, Refusal> {
        if number < CHANNELS as u64 && self.channels[number as usize].size > 0 {
            return Ok(number as usize);
        }
        Err(Refusal::NoSuchNumber)
    }

    /// The running task's session.
    fn session(&mut self, channel: usize) -> &mut Session {
        &mut self.channels[channel].sessions[self.running]
    }

    /// -14 on begin.
    fn no_session(&self, channel: usize) -> Result<(), Refusal> {
        match self.channels[channel].sessions[self.running] {
            Session::Closed => Ok(()),
            Session::Write(_) | Session::Reading(_) => Err(Refusal::WrongSession),
        }
    }

    /// -14, or the buffer of the running task's write.
    fn written(&self, channel: usize) -> Result<u8, Refusal> {
        match self.channels[channel].sessions[self.running] {
            Session::Write(buffer) => Ok(buffer),
            Session::Closed | Session::Reading(_) => Err(Refusal::WrongSession),
        }
    }

    /// -14, or the buffer of the running task's reading.
    fn read(&self, channel: usize) -> Result<u8, Refusal> {
        match self.channels[channel].sessions[self.running] {
            Session::Reading(buffer) => Ok(buffer),
            Session::Closed | Session::Write(_) => Err(Refusal::WrongSession),
        }
    }
}
