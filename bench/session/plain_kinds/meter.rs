//! The meter: its attributes and methods. Scripts, schedules and limiters, which no session of the
//! benchmark uses, are left out: their attributes read as null-data, and are not written.

use crate::association::Level;
use crate::data::Data;
use crate::objects::{find, may_execute, may_read, may_write, object_list, IMPORT};
use crate::switch::{State, Switch, Trigger};

const WATT: u8 = 27;

// An attribute or a method, by its class, the object's name and its number.
pub struct Target {
    pub class: u16,
    pub name: [u8; 6],
    pub number: u8,
}

pub struct Meter {
    device: Vec<u8>,
    switch: Switch,
    // The last samples of power, in watts.
    import: u32,
    export: u32,
}

// The first refusal of a request, if any: unknown name, another class, no right, a part of the
// attribute.
fn refusal(target: &Target, is_allowed: bool, is_selected: bool) -> Option<u8> {
    match find(target.name) {
        None => Some(4),
        Some(object) if object.class != target.class => Some(9),
        Some(_) if !is_allowed => Some(3),
        Some(_) if is_selected => Some(13),
        Some(_) => None,
    }
}

impl Meter {
    pub fn new(device: &[u8]) -> Meter {
        Meter {
            device: device.to_vec(),
            switch: Switch { state: State::Connected, mode: 0 },
            import: 0,
            export: 0,
        }
    }

    pub fn get(&self, level: Level, target: &Target, is_selected: bool) -> Result<Data, u8> {
        let is_allowed = may_read(level, target.class, target.number);
        if let Some(code) = refusal(target, is_allowed, is_selected) {
            return Err(code);
        }
        Ok(match (target.class, target.number) {
            (_, 1) => Data::OctetString(target.name.to_vec()),
            (1, _) => Data::OctetString(self.device.clone()),
            (3, 2) => Data::DoubleLongUnsigned(self.power(target.name)),
            (3, _) => Data::Structure(vec![Data::Integer(0), Data::Enum(WATT)]),
            (15, _) => object_list(level),
            (70, 2) => Data::Boolean(self.switch.is_on()),
            (70, 3) => Data::Enum(self.switch.state as u8),
            (70, _) => Data::Enum(self.switch.mode),
            _ => Data::Null,
        })
    }

    fn power(&self, register: [u8; 6]) -> u32 {
        if register == IMPORT {
            self.import
        } else {
            self.export
        }
    }

    pub fn set(&mut self, level: Level, target: &Target, is_selected: bool, value: &Data) -> u8 {
        let is_allowed = may_write(level, target.class, target.number);
        if let Some(code) = refusal(target, is_allowed, is_selected) {
            return code;
        }
        match (target.class, value) {
            (70, Data::Enum(mode)) => self.switch.set_mode(*mode),
            (70, _) => 12,
            _ => 250,
        }
    }

    pub fn execute(&mut self, level: Level, target: &Target, parameter: Option<&Data>) -> u8 {
        let is_allowed = may_execute(level, target.class, target.number);
        if let Some(code) = refusal(target, is_allowed, false) {
            return code;
        }
        match (target.class, target.number, parameter) {
            (70, 1, _) => self.switch.apply(Trigger::RemoteDisconnect),
            (70, _, _) => self.switch.apply(Trigger::RemoteReconnect),
            (_, _, Some(Data::LongUnsigned(_))) => 250,
            _ => 12,
        }
    }
}
