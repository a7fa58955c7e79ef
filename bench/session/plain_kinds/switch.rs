//! The supply switch (IEC 62056-6-2, class 70): its modes and its remote transitions.

#[derive(Clone, Copy, PartialEq)]
pub enum State {
    Disconnected = 0,
    Connected = 1,
    Ready = 2,
}

#[derive(Clone, Copy)]
pub enum Trigger {
    RemoteDisconnect,
    RemoteReconnect,
}

pub struct Switch {
    pub state: State,
    pub mode: u8,
}

impl Switch {
    pub fn is_on(&self) -> bool {
        self.state == State::Connected
    }

    // The state that a trigger leads to, if the mode has the transition.
    fn next(&self, trigger: Trigger) -> Option<State> {
        match (self.mode, trigger, self.state) {
            (0, _, _) => None,
            (_, Trigger::RemoteDisconnect, State::Connected | State::Ready) => {
                Some(State::Disconnected)
            }
            (2 | 4, Trigger::RemoteReconnect, State::Disconnected) => Some(State::Connected),
            (_, Trigger::RemoteReconnect, State::Disconnected) => Some(State::Ready),
            _ => None,
        }
    }

    // Whether the switch already is where a trigger leads.
    fn is_done(&self, trigger: Trigger) -> bool {
        match (trigger, self.state) {
            (Trigger::RemoteDisconnect, state) => state == State::Disconnected,
            (Trigger::RemoteReconnect, State::Ready) => !matches!(self.mode, 0 | 2 | 4),
            (Trigger::RemoteReconnect, state) => state == State::Connected,
        }
    }

    // Follows a trigger, and returns the result.
    pub fn apply(&mut self, trigger: Trigger) -> u8 {
        match self.next(trigger) {
            Some(state) => {
                self.state = state;
                0
            }
            None if self.is_done(trigger) => 0,
            None => 2,
        }
    }

    // Writes the mode, and returns the result.
    pub fn set_mode(&mut self, mode: u8) -> u8 {
        match mode {
            7.. => 250,
            0 if !self.is_on() => 2,
            _ => {
                self.mode = mode;
                0
            }
        }
    }
}
