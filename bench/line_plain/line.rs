//! The line: a control station, its terminals, and what is on the way between them.

use crate::bid::ReleaseError;
use crate::control::Control;
use crate::plain::{Heard, Message, decode};
use crate::record::{Record, RecordError, Setup};
use crate::tributary::{Terminal, Tributary};

#[derive(Clone, Copy, Debug, PartialEq, Eq)]
pub enum Way {
    FromTerminal,
    ToTerminal(usize),
}

#[derive(Clone, Copy, Debug, PartialEq, Eq)]
pub enum Speaker {
    Control,
    Terminal(usize),
}

#[derive(Clone, Copy, Debug, PartialEq, Eq)]
pub enum LineError {
    NothingSent,
    NotControl,
    WrongCount,
    Pending,
    NoSuchTerminal,
    NoSuchAddress,
    BadRecord(RecordError),
    Memory,
    NotInDoubt,
    CountMismatch,
}

impl From<ReleaseError> for LineError {
    fn from(error: ReleaseError) -> LineError {
        match error {
            ReleaseError::NotInDoubt => LineError::NotInDoubt,
            ReleaseError::CountMismatch => LineError::CountMismatch,
        }
    }
}

pub struct Line {
    setup: Setup,
    control: Control,
    terminals: Vec<Tributary>,
    sent: Option<(Speaker, Message)>,
    trusted: bool,
}

impl Line {
    pub fn new(setup: Setup, terminals: &[Terminal], poll_list: &[u8]) -> Line {
        Line {
            setup,
            control: Control::new(setup, terminals, poll_list),
            terminals: terminals
                .iter()
                .map(|terminal| Tributary::new(setup, terminal))
                .collect(),
            sent: None,
            trusted: true,
        }
    }

    pub fn trusted(&self) -> bool {
        self.trusted
    }

    pub fn terminals(&self) -> usize {
        self.terminals.len()
    }

    pub fn addresses(&self, terminal: usize) -> usize {
        self.control.addresses(terminal)
    }

    pub fn pending(&self) -> Option<&(Speaker, Message)> {
        self.sent.as_ref()
    }

    /// What is on the line is heard as these octets, or is lost.
    pub fn carry(&mut self, octets: Option<&[u8]>) -> Result<(), LineError> {
        let (speaker, message) = self.sent.take().ok_or(LineError::NothingSent)?;
        let heard = hearing(octets);
        if self.trusted {
            self.trusted = match message {
                Message::Call(_) => is_whole(&heard, &message) || is_missed(&heard),
                _ => is_fair(&heard, &message),
            };
        }
        self.deliver(speaker, &heard);
        Ok(())
    }

    /// What the control station sends is heard by each terminal as its item.
    pub fn carry_each(&mut self, items: &[Option<&[u8]>]) -> Result<(), LineError> {
        match self.sent {
            None => return Err(LineError::NothingSent),
            Some((Speaker::Terminal(_), _)) => return Err(LineError::NotControl),
            Some((Speaker::Control, _)) if items.len() != self.terminals.len() => {
                return Err(LineError::WrongCount);
            }
            Some((Speaker::Control, _)) => {}
        }
        let heard: Vec<Heard> = items.iter().map(|item| hearing(*item)).collect();
        if let Some((_, message)) = self.sent.take() {
            self.trusted &= match message {
                Message::Call(_) => {
                    heard.iter().all(|heard| is_whole(heard, &message))
                        || heard.iter().all(is_missed)
                }
                _ => heard.iter().all(|heard| is_fair(heard, &message)),
            };
        }
        for (number, (terminal, heard)) in self.terminals.iter_mut().zip(&heard).enumerate() {
            let answer = terminal.hear(heard);
            if self.sent.is_none() {
                self.sent = answer.map(|message| (Speaker::Terminal(number), message));
            }
        }
        Ok(())
    }

    /// What is on the line is heard as it was sent.
    pub fn carry_sent(&mut self) -> Result<(), LineError> {
        let (speaker, message) = self.sent.take().ok_or(LineError::NothingSent)?;
        self.deliver(speaker, &Heard::Whole(message));
        Ok(())
    }

    fn deliver(&mut self, speaker: Speaker, heard: &Heard) {
        self.sent = match speaker {
            Speaker::Control => self.tell_all(heard),
            Speaker::Terminal(_) => {
                let answer = self.control.hear(heard);
                answer.map(|message| (Speaker::Control, message))
            }
        };
    }

    /// All terminals hear the same; gives the answer of the least one that answers.
    fn tell_all(&mut self, heard: &Heard) -> Option<(Speaker, Message)> {
        let mut first = None;
        for (number, terminal) in self.terminals.iter_mut().enumerate() {
            if let Some(message) = terminal.hear(heard)
                && first.is_none()
            {
                first = Some((Speaker::Terminal(number), message));
            }
        }
        first
    }

    pub fn silence(&mut self) -> Result<(), LineError> {
        if self.sent.is_some() {
            return Err(LineError::Pending);
        }
        self.sent = match self.terminals.iter().position(Tributary::holds_line) {
            Some(number) => {
                let answer = self.terminals[number].silence();
                answer.map(|message| (Speaker::Terminal(number), message))
            }
            None => self
                .control
                .silence()
                .map(|message| (Speaker::Control, message)),
        };
        Ok(())
    }

    pub fn offer_at(&mut self, terminal: usize, codes: &[u8]) -> Result<(), LineError> {
        let record_of = self.setup.full;
        let station = self.terminal(terminal)?;
        let record = Record::read(codes, record_of).map_err(LineError::BadRecord)?;
        stored(station.sender.queue.offer(record))
    }

    pub fn offer_for(
        &mut self,
        terminal: usize,
        select: usize,
        codes: &[u8],
    ) -> Result<(), LineError> {
        self.terminal(terminal)?;
        if select >= self.addresses(terminal) {
            return Err(LineError::NoSuchAddress);
        }
        let record = Record::read(codes, self.setup.full).map_err(LineError::BadRecord)?;
        stored(
            self.control
                .sender_mut(terminal, select)
                .queue
                .offer(record),
        )
    }

    pub fn set_ready(&mut self, terminal: usize, ready: bool) -> Result<(), LineError> {
        self.terminal(terminal)?.set_ready(ready);
        Ok(())
    }

    pub fn set_polled(&mut self, terminal: usize, polled: bool) -> Result<(), LineError> {
        self.terminal(terminal)?;
        self.control.set_polled(terminal, polled);
        Ok(())
    }

    pub fn set_urgent_at(&mut self, terminal: usize) -> Result<(), LineError> {
        self.terminal(terminal)?.set_urgent();
        Ok(())
    }

    pub fn set_urgent_for(&mut self, terminal: usize) -> Result<(), LineError> {
        self.terminal(terminal)?;
        self.control.set_urgent(terminal);
        Ok(())
    }

    /// A station begins again; what it sent and nobody heard is lost.
    pub fn restart(&mut self, party: Speaker) -> Result<(), LineError> {
        match party {
            Speaker::Control => self.control.restart(),
            Speaker::Terminal(terminal) => self.terminal(terminal)?.restart(),
        }
        if self.sent.as_ref().is_some_and(|(speaker, _)| *speaker == party) {
            self.sent = None;
        }
        Ok(())
    }

    /// Ends a doubt by the count of the other end's spool.
    pub fn release(&mut self, terminal: usize, way: Way) -> Result<(), LineError> {
        self.terminal(terminal)?;
        match way {
            Way::FromTerminal => {
                let count = self.control.spool(terminal).records().len();
                self.terminals[terminal].sender.release(count)?;
            }
            Way::ToTerminal(select) => {
                if select >= self.addresses(terminal) {
                    return Err(LineError::NoSuchAddress);
                }
                let count = self.terminals[terminal].spool(select).records().len();
                self.control.sender_mut(terminal, select).release(count)?;
            }
        }
        Ok(())
    }

    pub fn offered(&self, terminal: usize, way: Way) -> &[Record] {
        match way {
            Way::FromTerminal => self.terminals[terminal].sender.queue.offered(),
            Way::ToTerminal(select) => self.control.sender(terminal, select).queue.offered(),
        }
    }

    pub fn spooled(&self, terminal: usize, way: Way) -> &[Record] {
        match way {
            Way::FromTerminal => self.control.spool(terminal).records(),
            Way::ToTerminal(select) => self.terminals[terminal].spool(select).records(),
        }
    }

    pub fn known(&self, terminal: usize, way: Way) -> usize {
        match way {
            Way::FromTerminal => self.terminals[terminal].sender.queue.known(),
            Way::ToTerminal(select) => self.control.sender(terminal, select).queue.known(),
        }
    }

    pub fn in_doubt(&self, terminal: usize, way: Way) -> bool {
        match way {
            Way::FromTerminal => self.terminals[terminal].sender.in_doubt(),
            Way::ToTerminal(select) => self.control.sender(terminal, select).in_doubt(),
        }
    }

    fn terminal(&mut self, terminal: usize) -> Result<&mut Tributary, LineError> {
        self.terminals
            .get_mut(terminal)
            .ok_or(LineError::NoSuchTerminal)
    }
}

fn hearing(octets: Option<&[u8]>) -> Heard {
    octets.map_or(Heard::Noise, decode)
}

fn stored(room: bool) -> Result<(), LineError> {
    if room { Ok(()) } else { Err(LineError::Memory) }
}

fn is_whole(heard: &Heard, message: &Message) -> bool {
    matches!(heard, Heard::Whole(whole) if whole == message)
}

/// Whether a call is missed.
fn is_missed(heard: &Heard) -> bool {
    matches!(heard, Heard::Noise | Heard::Whole(Message::Eot))
}

/// Whether the message, or nothing of it that passes a check, is heard.
fn is_fair(heard: &Heard, message: &Message) -> bool {
    match heard {
        Heard::Whole(whole) => whole == message,
        Heard::Failed => matches!(message, Message::Text(_)),
        Heard::Noise => true,
    }
}
