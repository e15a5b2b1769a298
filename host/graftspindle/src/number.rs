//! The numbers of stops and refusals.

numbered! {
    /// Why a call was refused: the definition's number of the stop or of the lookup's refusal. Success, 0, is none.
    Number {
        21 Mode "the mode is neither incremental (1) nor full (2)"
        22 Time "the time is not a real time YYYYMMDDhhmmss, or cannot have its offset"
        23 Order "the register or copy is not in order"
        24 Rows "the issuer rows break their form"
        25 HgvLength "the HGV's length is not that of a header, up to 8,192 lines and a footer"
        26 Header "a field of the HGV's header breaks its form"
        27 Version "the HGV's version is neither 120001 nor 220001"
        28 FullVersion "a full list cannot be of version 220001"
        29 Parties "the HGV's receiver is not 000002, or no issuer row has its sender"
        30 Count "the HGV's count differs from its number of lines"
        31 Footer "the HGV's footer breaks its form"
        32 Frame "a line of the HGV lacks 1 in front or LF at its end, or has a byte below 32"
        33 Slots "more used slots would follow than there are"
        34 HgcBuffer "the buffer for the HGC is too short"
        35 ThinList "twice the lines taken are fewer than the records held for the sender"
        36 Index "the index has fewer numbers than the register has slots"
        40 Key "the key breaks its form"
        41 NoRecord "no record fits"
        42 SeveralRecords "more than one active record fits"
        51 OtherActor "the copy has a record of another actor than the HGV's sender"
        52 Hgc "the HGC breaks its form, does not fit the HGV, or cannot have its offset"
        53 VerdictBlock "the block for the verdicts is too short"
        61 Given "a field or an issuer row breaks its rule, no issuer row has the sender, or there are more than 8,192 accounts"
        62 SamePan "two accounts have the same PAN"
        63 HgvBuffer "the buffer for the HGV is too short"
    }
}

/// The answer where the number is 0.
pub(crate) fn unless_refused<T>(number: u64, answer: T) -> Result<T, Number> {
    match number {
        0 => Ok(answer),
        refused => Err(Number::try_from(refused).expect("it is proved that the library answers with no other number")),
    }
}
