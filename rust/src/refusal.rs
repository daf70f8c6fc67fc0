use std::error::Error;
use std::fmt;

use crate::ffi;

// one list, so that a refusal's documentation and what it says of itself are one text: the headers'
macro_rules! refusals {
    ($($number:literal $name:ident $reason:literal)*) => {
        /// Why a call was refused. A refused call has changed nothing.
        ///
        /// In the earlier format every row has an offset, and shares with the block's first key: read so in 5, 13, 15 and 16.
        #[derive(Clone, Copy, Debug, PartialEq, Eq, Hash)]
        #[non_exhaustive]
        #[repr(u8)]
        pub enum Refusal {
            $(#[doc = concat!("Refusal ", $number, ": ", $reason, ".")] $name = $number,)*
        }

        impl Refusal {
            /// All of them, by number from 1.
            pub const ALL: &'static [Refusal] = &[$(Refusal::$name),*];

            fn reason(self) -> &'static str {
                match self {
                    $(Refusal::$name => $reason,)*
                }
            }
        }
    };
}

refusals! {
    1 EmptyKey "the key is empty"
    2 KeyTooLong "the key has over 4,096 bytes"
    3 ValueTooLong "the value, or its length, is over 65,535"
    4 RowDoesNotFit "the row doesn't fit into the block"
    5 RestartTooFar "a restart would lie past 65,535"
    6 BufferTooSmall "a lent buffer can't hold what is to be written"
    7 EmptyBlock "a block is built with no row"
    8 BadSettings "the block size or the interval is outside its limits"
    9 InputEnds "the input ends inside a row"
    10 VarintTooLarge "the fifth byte of a varint is above 15, or it has more bytes than its number needs"
    11 UnknownFlags "the flags byte is 16 or more"
    12 TombstoneWithMerge "the flags set tombstone and merge together"
    13 BadShare "the share is longer than the key before, or not 0 at a restart"
    14 BadTrailer "the block has under 2 bytes, its count is 0, or its trailer is longer than the block"
    15 BadOffset "the first restart is not 0, the offsets don't rise, or one is not below the data's length"
    16 RowPastRegion "a row inside the data runs past the next restart"
    17 KeyFalls "a key is smaller than the one before, or equal with a sequence number that is not smaller"
    18 BadState "the cursor's or the builder's state can't belong to these buffers"
    19 KeyBufferTooShort "the lent key buffer is shorter than the key"
    20 RowEndsEarly "a row of the earlier format ends before the next one starts, or before the data's end"
}

impl Refusal {
    pub fn number(self) -> u8 {
        self as u8
    }
}

impl fmt::Display for Refusal {
    fn fmt(&self, f: &mut fmt::Formatter<'_>) -> fmt::Result {
        write!(f, "refusal {}: {}", self.number(), self.reason())
    }
}

impl Error for Refusal {}

/// For a call that never says "done".
pub(crate) fn good(code: u8) -> Result<(), Refusal> {
    match code {
        ffi::GOOD => Ok(()),
        number => Err(refused(number)),
    }
}

/// For a call that may say "done": true for good, false for that.
pub(crate) fn good_or_done(code: u8) -> Result<bool, Refusal> {
    match code {
        ffi::DONE => Ok(false),
        code => good(code).map(|()| true),
    }
}

/// Panics at any other number, 254 too: this crate lends as many words as the header says, so the library is of another version.
fn refused(number: u8) -> Refusal {
    let refusal = Refusal::ALL.iter().find(|refusal| refusal.number() == number);
    *refusal.unwrap_or_else(|| panic!("the library answers {number}"))
}

#[cfg(test)]
mod tests {
    use super::*;

    #[test]
    fn good_done_and_refusals_are_told_apart() {
        assert_eq!((good(0), good_or_done(0)), (Ok(()), Ok(true)));
        assert_eq!(good_or_done(255), Ok(false));
        for &refusal in Refusal::ALL {
            assert_eq!(good(refusal.number()), Err(refusal));
            assert_eq!(good_or_done(refusal.number()), Err(refusal));
        }
    }

    #[test]
    #[should_panic(expected = "the library answers 255")]
    fn done_is_not_good() {
        let _ = good(255);
    }

    #[test]
    #[should_panic(expected = "the library answers 254")]
    fn bad_words_are_no_refusal() {
        let _ = good_or_done(254);
    }
}
