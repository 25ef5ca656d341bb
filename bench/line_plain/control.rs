//! The control station.

use crate::bid::{Act, Receiver, Reply, Sender};
use crate::plain::{Address, Heard, Message};
use crate::record::{Setup, Spool};
use crate::tributary::Terminal;

/// What is sent to one selection address.
struct Outbound {
    address: Address,
    sender: Sender,
}

/// What it keeps for one terminal.
struct Peer {
    poll: Address,
    polled: bool,
    urgent: bool,
    receiver: Receiver,
    spool: Spool,
    outbounds: Vec<Outbound>,
}

#[derive(Clone, Copy)]
enum Task {
    AtRest,
    Selecting { select: usize, enquired: bool },
    Sending { select: usize },
    Polling { replied: bool, rvi: bool },
}

pub struct Control {
    setup: Setup,
    poll_list: Vec<u8>,
    place: usize,
    task: Task,
    tries: u8,
    waits: u16,
    peers: Vec<Peer>,
}

impl Control {
    pub fn new(setup: Setup, terminals: &[Terminal], poll_list: &[u8]) -> Control {
        Control {
            setup,
            poll_list: poll_list.to_vec(),
            place: 0,
            task: Task::AtRest,
            tries: 0,
            waits: 0,
            peers: terminals
                .iter()
                .map(|terminal| Peer::new(setup, terminal))
                .collect(),
        }
    }

    pub fn addresses(&self, terminal: usize) -> usize {
        self.peers[terminal].outbounds.len()
    }

    pub fn sender(&self, terminal: usize, select: usize) -> &Sender {
        &self.peers[terminal].outbounds[select].sender
    }

    pub fn sender_mut(&mut self, terminal: usize, select: usize) -> &mut Sender {
        &mut self.peers[terminal].outbounds[select].sender
    }

    pub fn spool(&self, terminal: usize) -> &Spool {
        &self.peers[terminal].spool
    }

    pub fn set_polled(&mut self, terminal: usize, polled: bool) {
        self.peers[terminal].polled = polled;
    }

    pub fn set_urgent(&mut self, terminal: usize) {
        self.peers[terminal].urgent = true;
    }

    /// Begins again with its records and its doubts.
    pub fn restart(&mut self) {
        self.place = 0;
        self.task = Task::AtRest;
        self.tries = 0;
        self.waits = 0;
        for peer in &mut self.peers {
            peer.polled = true;
            peer.urgent = false;
            peer.receiver = Receiver::new();
            for outbound in &mut peer.outbounds {
                outbound.sender.restart();
            }
        }
    }

    /// Hears a transmission, and gives what it sends.
    pub fn hear(&mut self, heard: &Heard) -> Option<Message> {
        match self.task {
            Task::AtRest => None,
            Task::Selecting { select, .. } => match Reply::heard(heard)? {
                Reply::Ack0 => {
                    let act = self.outbound(select).sender.begin();
                    self.perform(act, select, false)
                }
                Reply::Nak => self.call_from(self.place, select + 1),
                Reply::Wack => self.enquire(select),
                _ => None,
            },
            Task::Sending { select } => {
                let reply = Reply::heard(heard)?;
                let act = self.outbound(select).sender.reply(reply);
                self.perform(act, select, reply == Reply::Rvi)
            }
            Task::Polling { rvi, .. } => match heard {
                Heard::Whole(Message::Eot) => self.call_after_poll(rvi),
                _ => self.receive(heard),
            },
        }
    }

    /// Acts on a silence, and gives what it sends.
    pub fn silence(&mut self) -> Option<Message> {
        match self.task {
            Task::AtRest => self.call_from(self.place, 0),
            Task::Selecting { select, enquired } => self.fail_selection(select, enquired),
            Task::Sending { select } => {
                let act = self.outbound(select).sender.silence();
                self.perform(act, select, false)
            }
            Task::Polling { replied, rvi } => {
                if replied || self.tries >= self.setup.tries {
                    return self.call_after_poll(rvi);
                }
                let tries = self.tries + 1;
                Some(self.poll(tries))
            }
        }
    }

    /// What is kept for the terminal of the present entry.
    fn peer(&mut self) -> &mut Peer {
        &mut self.peers[usize::from(self.poll_list[self.place])]
    }

    fn outbound(&mut self, select: usize) -> &mut Outbound {
        &mut self.peer().outbounds[select]
    }

    /// Makes the first call of an entry from this selection address on. If its terminal is not
    /// polled, it makes the first call of the next entry whose terminal is; if there is none, it is
    /// at rest.
    fn call_from(&mut self, place: usize, from: usize) -> Option<Message> {
        let Some(polled) = self.polled_from(place) else {
            self.task = Task::AtRest;
            self.tries = 0;
            self.waits = 0;
            return None;
        };
        self.place = polled;
        let from = if polled == place { from } else { 0 };
        let outbounds = &self.peer().outbounds;
        let select = (from..outbounds.len()).find(|&select| outbounds[select].sender.can_begin());
        Some(match select {
            Some(select) => self.select(select),
            None => self.poll(0),
        })
    }

    /// The first place of the poll list, from this one on, whose terminal is polled.
    fn polled_from(&self, place: usize) -> Option<usize> {
        let count = self.poll_list.len();
        (place..count)
            .chain(0..place)
            .find(|&at| self.peers[usize::from(self.poll_list[at])].polled)
    }

    fn select(&mut self, select: usize) -> Message {
        self.task = Task::Selecting {
            select,
            enquired: false,
        };
        self.tries = 0;
        self.waits = 0;
        let peer = self.peer();
        peer.urgent = false;
        Message::Call(peer.outbounds[select].address)
    }

    fn poll(&mut self, tries: u8) -> Message {
        self.task = Task::Polling {
            replied: false,
            rvi: false,
        };
        self.tries = tries;
        self.waits = 0;
        let peer = self.peer();
        peer.receiver.begin(true);
        Message::Call(peer.poll)
    }

    fn call_after_poll(&mut self, rvi: bool) -> Option<Message> {
        let place = if rvi {
            self.place
        } else if self.place + 1 == self.poll_list.len() {
            0
        } else {
            self.place + 1
        };
        self.call_from(place, 0)
    }

    fn perform(&mut self, act: Act, select: usize, interrupted: bool) -> Option<Message> {
        let message = match act {
            Act::Send(text) => Message::Text(text),
            Act::Enq => Message::Enq,
            Act::Over if interrupted => {
                let selects = self.peer().outbounds.len();
                return self.call_from(self.place, selects);
            }
            Act::Over => return self.call_from(self.place, select + 1),
            Act::Quiet => return None,
        };
        self.task = Task::Sending { select };
        Some(message)
    }

    /// The selected terminal has no room yet.
    fn enquire(&mut self, select: usize) -> Option<Message> {
        self.tries = 0;
        self.waits += 1;
        if self.waits > u16::from(self.setup.waits) {
            return self.call_from(self.place, select + 1);
        }
        self.task = Task::Selecting {
            select,
            enquired: true,
        };
        Some(Message::Enq)
    }

    fn fail_selection(&mut self, select: usize, enquired: bool) -> Option<Message> {
        self.tries += 1;
        if self.tries > self.setup.tries {
            self.call_from(self.place, select + 1)
        } else if enquired {
            Some(Message::Enq)
        } else {
            Some(Message::Call(self.outbound(select).address))
        }
    }

    /// Something but EOT is heard after a poll.
    fn receive(&mut self, heard: &Heard) -> Option<Message> {
        let peer = self.peer();
        let reply = peer.receiver.hear(heard, peer.urgent, &mut peer.spool)?;
        if reply == Reply::Rvi {
            peer.urgent = false;
        }
        if let Task::Polling { replied, rvi } = &mut self.task {
            *replied = true;
            *rvi |= reply == Reply::Rvi;
        }
        Some(reply.message())
    }
}

impl Peer {
    fn new(setup: Setup, terminal: &Terminal) -> Peer {
        let outbounds = terminal.selects.iter().map(|&address| Outbound {
            address,
            sender: Sender::new(setup),
        });
        Peer {
            poll: terminal.poll,
            polled: true,
            urgent: false,
            receiver: Receiver::new(),
            spool: Spool::default(),
            outbounds: outbounds.collect(),
        }
    }
}
