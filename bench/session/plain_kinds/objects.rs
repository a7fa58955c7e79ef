//! The meter's objects, and the rights of its clients to their attributes and methods.

use crate::association::Level;
use crate::data::Data;

pub struct Object {
    pub class: u16,
    version: u8,
    pub name: [u8; 6],
}

const fn object(class: u16, version: u8, name: [u8; 6]) -> Object {
    Object { class, version, name }
}

const OBJECTS: [Object; 12] = [
    object(15, 1, [0, 0, 40, 0, 0, 255]),
    object(1, 0, [0, 0, 42, 0, 0, 255]),
    object(3, 0, IMPORT),
    object(3, 0, EXPORT),
    object(9, 0, [0, 0, 10, 0, 106, 255]),
    object(22, 0, [0, 0, 15, 0, 1, 255]),
    object(22, 0, [0, 1, 15, 0, 1, 255]),
    object(22, 0, [0, 2, 15, 0, 1, 255]),
    object(22, 0, [0, 3, 15, 0, 1, 255]),
    object(70, 0, [0, 0, 96, 3, 10, 255]),
    object(71, 0, [0, 0, 17, 0, 0, 255]),
    object(71, 0, [0, 1, 17, 0, 0, 255]),
];

// The registers of power.
pub const IMPORT: [u8; 6] = [1, 0, 1, 7, 0, 255];
const EXPORT: [u8; 6] = [1, 0, 2, 7, 0, 255];

// An attribute or a method of a class, and the access modes of the public and of the management
// client: of an attribute 0 (none), 1 (read) or 3 (read and write), of a method 0 or 1.
struct Row {
    class: u16,
    number: u8,
    public: u8,
    management: u8,
}

const fn row(class: u16, number: u8, public: u8, management: u8) -> Row {
    Row { class, number, public, management }
}

const ATTRIBUTES: [Row; 28] = [
    row(15, 1, 1, 1),
    row(15, 2, 1, 1),
    row(1, 1, 1, 1),
    row(1, 2, 1, 1),
    row(3, 1, 1, 1),
    row(3, 2, 1, 1),
    row(3, 3, 1, 1),
    row(9, 1, 1, 1),
    row(9, 2, 0, 3),
    row(22, 1, 1, 1),
    row(22, 2, 0, 3),
    row(22, 3, 0, 3),
    row(22, 4, 0, 3),
    row(70, 1, 1, 1),
    row(70, 2, 1, 1),
    row(70, 3, 1, 1),
    row(70, 4, 1, 3),
    row(71, 1, 1, 1),
    row(71, 2, 0, 1),
    row(71, 3, 0, 1),
    row(71, 4, 0, 3),
    row(71, 5, 0, 3),
    row(71, 6, 0, 3),
    row(71, 7, 0, 3),
    row(71, 8, 0, 3),
    row(71, 9, 0, 3),
    row(71, 10, 0, 1),
    row(71, 11, 0, 3),
];

const METHODS: [Row; 3] = [row(9, 1, 0, 1), row(70, 1, 0, 1), row(70, 2, 0, 1)];

impl Row {
    fn access(&self, level: Level) -> u8 {
        match level {
            Level::Public => self.public,
            Level::Management => self.management,
        }
    }

    fn number(&self) -> Data {
        Data::Integer(self.number as i8)
    }
}

fn access(rows: &[Row], level: Level, class: u16, number: u8) -> u8 {
    let row = rows.iter().find(|row| row.class == class && row.number == number);
    row.map_or(0, |row| row.access(level))
}

pub fn may_read(level: Level, class: u16, number: u8) -> bool {
    access(&ATTRIBUTES, level, class, number) & 1 != 0
}

pub fn may_write(level: Level, class: u16, number: u8) -> bool {
    access(&ATTRIBUTES, level, class, number) & 2 != 0
}

pub fn may_execute(level: Level, class: u16, number: u8) -> bool {
    access(&METHODS, level, class, number) != 0
}

pub fn find(name: [u8; 6]) -> Option<&'static Object> {
    OBJECTS.iter().find(|object| object.name == name)
}

// The object list, as a client of this level reads it.
pub fn object_list(level: Level) -> Data {
    Data::Array(OBJECTS.iter().map(|object| object.entry(level)).collect())
}

impl Object {
    fn entry(&self, level: Level) -> Data {
        Data::Structure(vec![
            Data::LongUnsigned(self.class),
            Data::Unsigned(self.version),
            Data::OctetString(self.name.to_vec()),
            Data::Structure(vec![self.attributes(level), self.methods(level)]),
        ])
    }

    // The attributes: number, access mode and no access selectors.
    fn attributes(&self, level: Level) -> Data {
        let rows = ATTRIBUTES.iter().filter(|row| row.class == self.class);
        let entry = |row: &Row| vec![row.number(), Data::Enum(row.access(level)), Data::Null];
        Data::Array(rows.map(|row| Data::Structure(entry(row))).collect())
    }

    // The methods: number and access mode.
    fn methods(&self, level: Level) -> Data {
        let rows = METHODS.iter().filter(|row| row.class == self.class);
        let entry = |row: &Row| vec![row.number(), Data::Enum(row.access(level))];
        Data::Array(rows.map(|row| Data::Structure(entry(row))).collect())
    }
}
