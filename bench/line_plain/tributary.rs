//! A terminal.

use crate::bid::{Act, Receiver, Reply, Sender};
use crate::plain::{Address, Heard, Message};
use crate::record::{Setup, Spool};

/// The addresses of a terminal: what it is polled by, and the one to four that it is selected by.
pub struct Terminal {
    pub poll: Address,
    pub selects: Vec<Address>,
}

#[derive(Clone, Copy, PartialEq, Eq)]
enum Mode {
    Control,
    Receiving { select: usize },
    Sending,
}

pub struct Tributary {
    poll: Address,
    selects: Vec<Address>,
    mode: Mode,
    ready: bool,
    urgent: bool,
    pub sender: Sender,
    receiver: Receiver,
    spools: Vec<Spool>,
}

impl Tributary {
    pub fn new(setup: Setup, terminal: &Terminal) -> Tributary {
        Tributary {
            poll: terminal.poll,
            selects: terminal.selects.clone(),
            mode: Mode::Control,
            ready: true,
            urgent: false,
            sender: Sender::new(setup),
            receiver: Receiver::new(),
            spools: terminal.selects.iter().map(|_| Spool::default()).collect(),
        }
    }

    pub fn set_ready(&mut self, ready: bool) {
        self.ready = ready;
    }

    pub fn set_urgent(&mut self) {
        self.urgent = true;
    }

    /// Begins again with its records and its doubt.
    pub fn restart(&mut self) {
        self.mode = Mode::Control;
        self.ready = true;
        self.urgent = false;
        self.sender.restart();
        self.receiver = Receiver::new();
    }

    pub fn spool(&self, select: usize) -> &Spool {
        &self.spools[select]
    }

    pub fn holds_line(&self) -> bool {
        self.mode == Mode::Sending
    }

    /// Hears a transmission, and gives what it sends.
    pub fn hear(&mut self, heard: &Heard) -> Option<Message> {
        match heard {
            Heard::Whole(Message::Eot) => {
                self.leave();
                None
            }
            Heard::Whole(Message::Call(address)) => self.be_called(address),
            _ => match self.mode {
                Mode::Control => None,
                Mode::Receiving { select } => self.receive(select, heard),
                Mode::Sending => {
                    let act = self.sender.reply(Reply::heard(heard)?);
                    self.perform(act)
                }
            },
        }
    }

    /// Acts on a silence, and gives what it sends.
    pub fn silence(&mut self) -> Option<Message> {
        if self.mode != Mode::Sending {
            return None;
        }
        let act = self.sender.silence();
        self.perform(act)
    }

    /// Goes into control mode.
    fn leave(&mut self) {
        self.sender.cut_off();
        self.mode = Mode::Control;
    }

    fn be_called(&mut self, address: &Address) -> Option<Message> {
        self.leave();
        if *address == self.poll {
            return self.be_polled();
        }
        let select = self.selects.iter().position(|select| select == address)?;
        if !self.ready {
            return Some(Message::Nak);
        }
        self.mode = Mode::Receiving { select };
        let room = self.spools[select].make_room();
        Some(self.receiver.begin(room).message())
    }

    fn be_polled(&mut self) -> Option<Message> {
        self.urgent = false;
        if !self.sender.can_begin() {
            return Some(Message::Eot);
        }
        self.mode = Mode::Sending;
        let act = self.sender.begin();
        self.perform(act)
    }

    fn receive(&mut self, select: usize, heard: &Heard) -> Option<Message> {
        let reply = self
            .receiver
            .hear(heard, self.urgent, &mut self.spools[select])?;
        if reply == Reply::Rvi {
            self.urgent = false;
        }
        Some(reply.message())
    }

    fn perform(&mut self, act: Act) -> Option<Message> {
        match act {
            Act::Send(text) => Some(Message::Text(text)),
            Act::Enq => Some(Message::Enq),
            Act::Over => {
                self.mode = Mode::Control;
                Some(Message::Eot)
            }
            Act::Quiet => None,
        }
    }
}
