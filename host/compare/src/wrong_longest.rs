//! Wrong writers of T-13's problem.

use matcher::raw::{self, OK};

/// A way to be wrong.
#[derive(Clone, Copy, Debug, PartialEq, Eq)]
pub enum WrongLongest {
    /// Refuses everything.
    Refuses,
    /// Takes another number of nodes for the last: 255.
    LastIs255,
    /// Writes for 257 nodes too.
    Takes257,
    /// Takes 0 nodes for 1.
    Takes0,
    /// Has one symbol more.
    OneSymbolMore,
    /// Has symbol 1 for the last one.
    LastSymbolDiffers,
    /// Has a symbol without an application for two nodes.
    TwoNodesAreOne,
    /// Looks for 29 before 28.
    LooksFor29First,
    /// Refuses a buffer that is just long enough.
    RefusesExactRoom,
    /// Changes the byte after the problem.
    WritesTooFar,
    /// Changes the buffer although it is too short.
    WritesWhenRefused,
    /// Gives a length although it refuses.
    TellsLengthWhenRefused,
}

impl WrongLongest {
    /// All of them.
    pub const ALL: [WrongLongest; 12] = [
        WrongLongest::Refuses,
        WrongLongest::LastIs255,
        WrongLongest::Takes257,
        WrongLongest::Takes0,
        WrongLongest::OneSymbolMore,
        WrongLongest::LastSymbolDiffers,
        WrongLongest::TwoNodesAreOne,
        WrongLongest::LooksFor29First,
        WrongLongest::RefusesExactRoom,
        WrongLongest::WritesTooFar,
        WrongLongest::WritesWhenRefused,
        WrongLongest::TellsLengthWhenRefused,
    ];

    /// Writes wrongly.
    pub fn write(self, nodes: u32, out: &mut [u8], written: &mut usize) -> u32 {
        let before = out.to_vec();
        let handed = match (self, nodes) {
            (WrongLongest::Takes257, 257) => 256,
            (WrongLongest::Takes0, 0) | (WrongLongest::TwoNodesAreOne, 2) => 1,
            (WrongLongest::OneSymbolMore, 2..=255) => nodes + 1,
            _ => nodes,
        };
        let answer = raw::longest(handed, out, written);
        match self {
            WrongLongest::Refuses => {
                out.copy_from_slice(&before);
                28
            }
            WrongLongest::LastIs255 if nodes == 256 && answer != 28 => {
                out.copy_from_slice(&before);
                28
            }
            WrongLongest::LastSymbolDiffers if answer == OK => {
                out[*written - 1] = 1;
                OK
            }
            WrongLongest::LooksFor29First if answer == 28 && out.len() < 16 => 29,
            WrongLongest::RefusesExactRoom if answer == OK && out.len() == *written => {
                out.copy_from_slice(&before);
                29
            }
            WrongLongest::WritesTooFar if answer == OK && *written < out.len() => {
                out[*written] = 0;
                OK
            }
            WrongLongest::WritesWhenRefused if answer == 29 && !out.is_empty() => {
                out[0] = 7;
                29
            }
            WrongLongest::TellsLengthWhenRefused if answer == 29 => {
                *written = 0;
                29
            }
            _ => answer,
        }
    }
}
