//! 02's job 9: the order in which a unit tries its values. A unit does not store it: making, steps and deliveries are told.

use super::costs::Cost;

#[derive(Clone, Copy, PartialEq, Eq, Debug, Default)]
pub enum ValueOrder {
    /// 01's, by number: its listing and its cases 6 and 9 name it.
    Ascending,
    /// 02: "by rising h, the lower number first on a tie, values without an h last". "Whoever names nothing gets the new one".
    #[default]
    CheapestFirst,
}

impl ValueOrder {
    pub const BOTH: [ValueOrder; 2] = [ValueOrder::Ascending, ValueOrder::CheapestFirst];

    /// As the calls for C number them: any number but 0 is the second one's.
    pub fn numbered(number: u8) -> ValueOrder {
        match number {
            0 => ValueOrder::Ascending,
            _ => ValueOrder::CheapestFirst,
        }
    }

    pub fn number(self) -> u8 {
        match self {
            ValueOrder::Ascending => 0,
            ValueOrder::CheapestFirst => 1,
        }
    }

    pub fn other(self) -> ValueOrder {
        match self {
            ValueOrder::Ascending => ValueOrder::CheapestFirst,
            ValueOrder::CheapestFirst => ValueOrder::Ascending,
        }
    }

    /// The values of a unit as it tries them; h is of each, value 1's first.
    pub fn tried(self, h: &[Cost]) -> Vec<usize> {
        let mut values: Vec<usize> = (1..=h.len()).collect();
        if self == ValueOrder::CheapestFirst {
            // without an h it is forbidden, which is above every number
            values.sort_by_key(|v| (h[*v - 1], *v));
        }
        values
    }
}
