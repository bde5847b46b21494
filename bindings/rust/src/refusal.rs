//! The refusals of document 01, by name, number and meaning.

use std::fmt;

macro_rules! refusals {
    ($($number:literal $name:ident $meaning:literal),* $(,)?) => {
        /// Why a call was refused. A refusal changed nothing.
        ///
        /// ```
        /// assert_eq!(mahqurith::Refusal::NotActive.to_string(), "4: not active");
        /// ```
        #[derive(Clone, Copy, PartialEq, Eq, Debug)]
        pub enum Refusal {
            $(#[doc = $meaning] $name,)*
            /// out of order; the present height is given
            OutOfOrder {
                /// the ledger's present height
                height: u64,
            },
        }

        impl Refusal {
            /// Document 01's number.
            pub fn number(self) -> u32 {
                match self {
                    $(Refusal::$name => $number,)*
                    Refusal::OutOfOrder { .. } => 11,
                }
            }

            /// Document 01's meaning.
            pub fn meaning(self) -> &'static str {
                match self {
                    $(Refusal::$name => $meaning,)*
                    Refusal::OutOfOrder { .. } => "out of order; the present height is given",
                }
            }

            pub(crate) fn unless_accepted(number: u32, height: u64) -> Result<(), Refusal> {
                match number {
                    0 => Ok(()),
                    $($number => Err(Refusal::$name),)*
                    11 => Err(Refusal::OutOfOrder { height }),
                    _ => unreachable!("the library answers with no other number"),
                }
            }
        }
    };
}

refusals! {
    1 AreaTooShort "output area shorter than the call's size",
    2 RecordNotSound "record not sound",
    3 NotBlank "status is not blank",
    4 NotActive "not active",
    5 NotPrepared "not prepared",
    6 RackBroken "rack breaks the layout",
    7 KeyNotInRack "own key not in own rack",
    8 RollOrRackAlone "roll without previous rack, or the reverse",
    9 LedgerExists "ledger exists",
    10 NoSuchLedger "no such ledger",
    12 HeightAtTop "height is 4,294,967,295",
    13 TableFull "63 ledgers already",
    14 LabelZero "label all zero",
    15 RollBroken "roll breaks the layout",
    16 TooFew "fewer entries than a majority",
    17 NotAttested "not attested",
    18 SignatureNotValid "finalise or receipt signature not valid",
    19 InitialiseNotValid "initialise signature not valid",
    20 NotDerived "roll not derived",
    21 DigestDiffers "rack digest differs from the record's",
    22 ListBroken "bundle or signer list breaks the layout",
    23 StatementNotAsked "statement is not the one asked for: length, layout, kind, identity, rack digest or label",
    24 NonceDiffers "nonce differs",
    25 InputTooLong "hash input over 65,536 bytes",
    32 ListOfWrongLength "list of 0 or more than 32",
    33 TextTooLong "text over 418 bytes",
    34 StoreFull "every block of the store is used",
    35 BlockDamaged "no undamaged block answers, and the store holds a damaged one",
    36 NotLeading "the store's read refuses a needed entry, two highest rows differ, or the digests do not lead to the highest tail",
    37 BundleTooLarge "the roll passes 63 rows, a count 64 or the bundle its length",
    38 RackOfTwo "rack of two",
    39 CompanyFull "company with 31 rows or more",
}

impl fmt::Display for Refusal {
    fn fmt(&self, f: &mut fmt::Formatter<'_>) -> fmt::Result {
        write!(f, "{}: {}", self.number(), self.meaning())
    }
}

impl std::error::Error for Refusal {}
