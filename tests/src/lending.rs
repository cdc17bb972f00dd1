//! Faults that are planted in the lengths that the library is told, to see that they are seen.

/// Deliberate faults: a listing, a reading or a writing that is told of other memory than was lent.
#[derive(Clone, Copy, PartialEq, Eq)]
pub enum Fault {
    /// The table is said to have one word more, which is read.
    ReadPast,
    /// The output is said to have one word more, which is written.
    WritePast,
    /// The output is said to have one word less, so that its last word is never written.
    Unwritten,
    /// The file is said to have one byte more.
    FilePast,
    /// The dictionary is said to have one byte more.
    DictionaryPast,
    /// The delivery is said to have one byte more, which is written.
    DeliveryPast,
    /// The table that is written is said to have one word more.
    RowsPast,
    /// The dictionary of a writing is said to have one byte more.
    TextsPast,
    /// The output of a writing is said to have one byte more, which is written.
    LinesPast,
    /// The output of a writing is said to have one byte less, so that its last byte is never written.
    LinesUnwritten,
}

impl Fault {
    pub const ALL: [Fault; 10] = [
        Fault::ReadPast,
        Fault::WritePast,
        Fault::Unwritten,
        Fault::FilePast,
        Fault::DictionaryPast,
        Fault::DeliveryPast,
        Fault::RowsPast,
        Fault::TextsPast,
        Fault::LinesPast,
        Fault::LinesUnwritten,
    ];

    /// The name by which the command line calls a fault.
    pub fn name(self) -> &'static str {
        match self {
            Fault::ReadPast => "read-past",
            Fault::WritePast => "write-past",
            Fault::Unwritten => "unwritten",
            Fault::FilePast => "file-past",
            Fault::DictionaryPast => "dictionary-past",
            Fault::DeliveryPast => "delivery-past",
            Fault::RowsPast => "rows-past",
            Fault::TextsPast => "texts-past",
            Fault::LinesPast => "lines-past",
            Fault::LinesUnwritten => "lines-unwritten",
        }
    }
}
