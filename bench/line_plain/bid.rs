//! The two ends of a bid: the sender and the receiver.

use crate::plain::{End, Heard, Message, Text};
use crate::record::{Block, Queue, Setup, Spool};

#[derive(Clone, Copy, PartialEq, Eq)]
pub enum Reply {
    Ack0,
    Ack1,
    Nak,
    Wack,
    Rvi,
}

impl Reply {
    pub fn heard(heard: &Heard) -> Option<Reply> {
        match heard {
            Heard::Whole(Message::Ack0) => Some(Reply::Ack0),
            Heard::Whole(Message::Ack1) => Some(Reply::Ack1),
            Heard::Whole(Message::Nak) => Some(Reply::Nak),
            Heard::Whole(Message::Wack) => Some(Reply::Wack),
            Heard::Whole(Message::Rvi) => Some(Reply::Rvi),
            _ => None,
        }
    }

    pub fn message(self) -> Message {
        match self {
            Reply::Ack0 => Message::Ack0,
            Reply::Ack1 => Message::Ack1,
            Reply::Nak => Message::Nak,
            Reply::Wack => Message::Wack,
            Reply::Rvi => Message::Rvi,
        }
    }

    fn ack(odd: bool) -> Reply {
        if odd { Reply::Ack1 } else { Reply::Ack0 }
    }
}

/// What a sender does.
pub enum Act {
    Send(Text),
    Enq,
    Over,
    Quiet,
}

#[derive(Clone, Copy)]
enum Phase {
    Idle,
    Unanswered { block: Block, odd: bool },
    Held { end: End, odd: bool },
    InDoubt { count: usize },
}

#[derive(Clone, Copy, Debug, PartialEq, Eq)]
pub enum ReleaseError {
    NotInDoubt,
    CountMismatch,
}

/// What is sent on a channel: the records, and how far their bid is.
pub struct Sender {
    setup: Setup,
    pub queue: Queue,
    phase: Phase,
    tries: u8,
    waits: u16,
}

impl Sender {
    pub fn new(setup: Setup) -> Sender {
        Sender {
            setup,
            queue: Queue::default(),
            phase: Phase::Idle,
            tries: 0,
            waits: 0,
        }
    }

    pub fn in_doubt(&self) -> bool {
        matches!(self.phase, Phase::InDoubt { .. })
    }

    /// Whether records wait and no doubt stands in their way.
    pub fn can_begin(&self) -> bool {
        self.queue.is_waiting() && !self.in_doubt()
    }

    /// Begins a bid.
    pub fn begin(&mut self) -> Act {
        self.send_next(true)
    }

    pub fn reply(&mut self, reply: Reply) -> Act {
        match self.phase {
            Phase::Idle | Phase::InDoubt { .. } => Act::Quiet,
            Phase::Unanswered { block, odd } => self.answer_unanswered(block, odd, reply),
            Phase::Held { end, odd } => self.answer_held(end, odd, reply),
        }
    }

    pub fn silence(&mut self) -> Act {
        match self.phase {
            Phase::Idle | Phase::InDoubt { .. } => Act::Quiet,
            Phase::Unanswered { block, .. } => {
                self.ask_again(Phase::InDoubt { count: block.count })
            }
            Phase::Held { .. } => self.ask_again(Phase::Idle),
        }
    }

    /// The line was taken from it.
    pub fn cut_off(&mut self) {
        match self.phase {
            Phase::Unanswered { block, .. } => self.phase = Phase::InDoubt { count: block.count },
            Phase::Held { .. } => self.phase = Phase::Idle,
            Phase::Idle | Phase::InDoubt { .. } => {}
        }
    }

    /// Its station begins again.
    pub fn restart(&mut self) {
        self.cut_off();
        self.tries = 0;
        self.waits = 0;
    }

    /// Ends the doubt by the other end's count.
    pub fn release(&mut self, count: usize) -> Result<(), ReleaseError> {
        let Phase::InDoubt { count: doubtful } = self.phase else {
            return Err(ReleaseError::NotInDoubt);
        };
        let known = self.queue.known();
        if count != known && count != known + doubtful {
            return Err(ReleaseError::CountMismatch);
        }
        self.queue.mark(count - known);
        self.phase = Phase::Idle;
        Ok(())
    }

    fn send_next(&mut self, odd: bool) -> Act {
        self.tries = 0;
        self.waits = 0;
        let Some(block) = self.queue.next(&self.setup) else {
            return self.end();
        };
        self.phase = Phase::Unanswered { block, odd };
        Act::Send(self.queue.text(block, self.setup.full))
    }

    fn end(&mut self) -> Act {
        self.phase = Phase::Idle;
        Act::Over
    }

    fn accept(&mut self, end: End, odd: bool) -> Act {
        match end {
            End::Etx => {
                self.tries = 0;
                self.waits = 0;
                self.end()
            }
            End::Etb => self.send_next(!odd),
        }
    }

    /// One more failure in a row; true where the limit is passed.
    fn fail(&mut self, left: Phase) -> bool {
        self.tries += 1;
        let over = self.tries > self.setup.tries;
        if over {
            self.phase = left;
        }
        over
    }

    fn ask_again(&mut self, left: Phase) -> Act {
        if self.fail(left) { Act::Over } else { Act::Enq }
    }

    fn delay(&mut self, end: End, odd: bool) -> Act {
        self.tries = 0;
        self.waits += 1;
        if self.waits > u16::from(self.setup.waits) {
            return self.end();
        }
        self.phase = Phase::Held { end, odd };
        Act::Enq
    }

    fn answer_unanswered(&mut self, block: Block, odd: bool, reply: Reply) -> Act {
        match reply {
            Reply::Wack => {
                self.queue.mark(block.count);
                self.delay(block.end, odd)
            }
            Reply::Rvi => {
                self.queue.mark(block.count);
                self.end()
            }
            _ if reply == Reply::ack(odd) => {
                self.queue.mark(block.count);
                self.accept(block.end, odd)
            }
            _ => {
                if self.fail(Phase::Idle) {
                    Act::Over
                } else {
                    Act::Send(self.queue.text(block, self.setup.full))
                }
            }
        }
    }

    fn answer_held(&mut self, end: End, odd: bool, reply: Reply) -> Act {
        match reply {
            Reply::Wack => self.delay(end, odd),
            Reply::Rvi => self.end(),
            _ if reply == Reply::ack(odd) => self.accept(end, odd),
            _ => self.ask_again(Phase::Idle),
        }
    }
}

/// The receiver of one bid.
pub struct Receiver {
    odd: bool,
    last: Reply,
}

impl Receiver {
    pub fn new() -> Receiver {
        Receiver {
            odd: false,
            last: Reply::Ack0,
        }
    }

    pub fn begin(&mut self, room: bool) -> Reply {
        self.odd = false;
        self.last = if room { Reply::Ack0 } else { Reply::Wack };
        self.last
    }

    pub fn hear(&mut self, heard: &Heard, urgent: bool, spool: &mut Spool) -> Option<Reply> {
        self.last = match heard {
            Heard::Whole(Message::Text(text)) => self.take(text, urgent, spool),
            Heard::Whole(Message::Enq) if self.last == Reply::Wack && spool.make_room() => {
                Reply::ack(self.odd)
            }
            Heard::Whole(Message::Enq) => self.last,
            Heard::Failed => Reply::Nak,
            _ => return None,
        };
        Some(self.last)
    }

    fn take(&mut self, text: &Text, urgent: bool, spool: &mut Spool) -> Reply {
        if !spool.make_room() {
            return Reply::Nak;
        }
        spool.store(text);
        self.odd = !self.odd;
        if urgent && self.last != Reply::Rvi {
            Reply::Rvi
        } else if spool.make_room() {
            Reply::ack(self.odd)
        } else {
            Reply::Wack
        }
    }
}
