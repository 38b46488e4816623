//! Why a submission is not loaded.

use core::error::Error;
use core::fmt;

/// Makes the enum of a row for each refusal: its number, its name with its item, and its sentence.
macro_rules! refusals {
    ($($number:literal $name:ident $({ $item:ident })? $reason:literal,)*) => {
        /// Why a submission is not loaded, in the order of the checks. It displays as its sentence.
        #[derive(Clone, Copy, Debug, PartialEq, Eq)]
        pub enum Refusal {
            $(
                #[doc = concat!($number, ": ", $reason)]
                $name $({ $item: u32 })?,
            )*
        }

        impl Refusal {
            /// The numbers of the refusals, in the order of the checks.
            pub const NUMBERS: &'static [u32] = &[$($number),*];

            /// The number of the refusal.
            pub fn number(self) -> u32 {
                match self { $(Refusal::$name { .. } => $number,)* }
            }

            /// The item of the refusal, 0 where it has none.
            pub fn item(self) -> u32 {
                match self { $(Refusal::$name $({ $item })? => 0 $(+ $item)?,)* }
            }

            /// The sentence of the refusal.
            pub fn reason(self) -> &'static str {
                match self { $(Refusal::$name { .. } => $reason,)* }
            }

            /// The refusal of a number and an item, if there is one of that number.
            pub fn of_number(number: u32, item: u32) -> Option<Refusal> {
                match number {
                    $($number => Some(Refusal::$name $({ $item: item })?),)*
                    _ => None,
                }
            }
        }
    };
}

refusals! {
    1 NotASubmission "the submission is under 12 bytes, or its mark or version is wrong",
    2 BadSubmission "the submission breaks another rule of its format",
    3 BadOperatorLine "the operator's line is over 255 bytes or holds a zero byte",
    4 WindowPastTop "the window's first address plus its length is above the top",
    5 BadMemoryMap "the map is empty, over 4,096 bytes, has over 32 pairs, or a pair has a size under 20 or runs past the map's end",
    6 NoHeader { false_headers } "the image has no header; the item is how many false headers it has",
    7 UnknownRequest "one of the header's flag bits 2 to 15 is set",
    25 UndefinedBits "one of the header's flag bits 17 to 31 is set",
    8 NoAddressFields "the header's flag bit 16 is clear, and the image does not begin with the ELF mark",
    9 HeaderCutOff "the 32 bytes of header and address fields do not lie inside both the image and its first 8,192 bytes",
    10 LoadBeforeImage "load_addr is above header_addr, or their difference is above the header's offset",
    // 11 is not given
    12 LoadPastImage "load_end_addr is not 0 and below load_addr, or the load ends beyond the image",
    13 BssBelowLoadEnd "bss_end_addr is not 0 and below the load end",
    18 BadElf "the ELF image is under 52 bytes, is not of class 1, data 1, type 2, machine 3 and entry size 32, has its table beyond the image or over 16 entries in it, or has no segment",
    19 BadProgramHeader "a loadable program header has file bytes outside the image, or a file size above its memory size",
    20 SegmentsOverlap "two segments share an address",
    14 EntryOutsideLoad "the entry lies in no segment's load bytes",
    15 KernelNotOpen "an address of the kernel's extents is not open",
    16 NoRoomForModule { index } "there is no room for a module; the item is its index, counted from 0",
    17 NoRoomForBlock "there is no room for the information block",
}

impl fmt::Display for Refusal {
    fn fmt(&self, f: &mut fmt::Formatter) -> fmt::Result {
        f.write_str(self.reason())
    }
}

impl Error for Refusal {}
