//! Faults that are planted in the model, to see that they are found.

/// Deliberate faults.
#[derive(Clone, Copy, PartialEq, Eq, Debug)]
pub enum Fault {
    /// "Counting paths where facts are to be counted."
    CountPaths,
    /// "Giving a literal a type by range in one way only."
    TypeLiterals,
    /// "Dropping a kept fact whose explicit copy is withdrawn while another carries it."
    DropExplicit,
    /// "Stopping subclass steps at a fixed depth below 512."
    LimitDepth,
    /// "Forgetting that a variable property also matches statements and rdf:type."
    SkipStatements,
    /// Order 2 is POS: the columns rotated.
    OrderRotated,
    /// A class or property with a step is joined to itself: zero or more steps.
    ReflexivePairs,
    /// A loop joins no class to itself.
    LoopsLost,
    /// Steps of subclass and of subproperty are joined.
    StepsMixed,
    /// A domain or a range is inherited by the classes above.
    ClassInherited,
    /// The rewritten way matches explicit statements alone.
    ClosedKept,
    /// A variable property that another atom has bound matches explicit statements alone.
    BoundExplicit,
    /// A character below U+0080 may stand in two bytes.
    OverlongForm,
    /// An escape may give a surrogate.
    SurrogateEscape,
    /// An escape may give ">" in an IRI.
    BarredEscape,
    /// An IRI needs no scheme.
    RelativeIri,
    /// A label may end in a dot.
    LabelDot,
    /// U+037E, between two ranges, may stand in a label.
    LabelEdge,
    /// A tag stays as it is written.
    TagCapitals,
    /// The type xsd:string stays.
    StringType,
    /// A canonical text has a tab as an escape.
    TabEscape,
    /// URIs are numbered from 1 on.
    UrisFromOne,
    /// The vocabulary gets entries.
    VocabularyEntries,
    /// A line's object is seen first.
    ObjectFirst,
    /// 15 is asked before 14.
    DeliveryFirst,
    /// 14 leaves the new entries that have room.
    EntriesLeft,
    /// Facts come before statements in a delivery.
    SectionsSwapped,
    /// A line that was there before is dropped.
    CopyDropped,
    /// A delivery may have more than 65,536 bytes.
    LongDelivery,
    /// A dictionary may have bytes behind its zeros.
    BytesBehind,
    /// A dictionary may have a text twice, and those of the vocabulary.
    TextTwice,
    /// A dictionary's texts need not be canonical.
    OtherTexts,
    /// The upper four bytes of a text's length are not read.
    LengthCut,
    /// Texts behind the first 49,152 of a dictionary are not found.
    FirstSegment,
    /// Two spaces stand behind a term of a line.
    TwoSpaces,
    /// No space stands before the dot of a line.
    NoLastSpace,
    /// A line that is written ends in CR and LF.
    ReturnedLine,
    /// A term is written by the text of the next.
    NeighbourText,
    /// A tab is written as an escape.
    TabWritten,
    /// The last row is written first.
    RowsReversed,
    /// The vocabulary has no texts but those of entries.
    VocabularyUnknown,
    /// 16 is not asked of the last row.
    LastUnasked,
    /// 8 is asked before 16.
    FullFirst,
    /// An output may have one byte too few.
    ByteShort,
    /// 16 leaves the output as it was.
    OutputLeft,
    /// The bytes behind the lines stay as they were.
    RestLeft,
    /// Texts behind the first 16,384 of a kind are not found.
    FirstPlaces,
}

impl Fault {
    /// Those that document 01 lists as the usual mistakes, one of listings, and those of closed
    /// statements.
    pub const STORE: [Fault; 12] = [
        Fault::CountPaths,
        Fault::TypeLiterals,
        Fault::DropExplicit,
        Fault::LimitDepth,
        Fault::SkipStatements,
        Fault::OrderRotated,
        Fault::ReflexivePairs,
        Fault::LoopsLost,
        Fault::StepsMixed,
        Fault::ClassInherited,
        Fault::ClosedKept,
        Fault::BoundExplicit,
    ];

    /// Those of reading N-Triples.
    pub const READING: [Fault; 22] = [
        Fault::OverlongForm,
        Fault::SurrogateEscape,
        Fault::BarredEscape,
        Fault::RelativeIri,
        Fault::LabelDot,
        Fault::LabelEdge,
        Fault::TagCapitals,
        Fault::StringType,
        Fault::TabEscape,
        Fault::UrisFromOne,
        Fault::VocabularyEntries,
        Fault::ObjectFirst,
        Fault::DeliveryFirst,
        Fault::EntriesLeft,
        Fault::SectionsSwapped,
        Fault::CopyDropped,
        Fault::LongDelivery,
        Fault::BytesBehind,
        Fault::TextTwice,
        Fault::OtherTexts,
        Fault::LengthCut,
        Fault::FirstSegment,
    ];

    /// Those of writing N-Triples.
    pub const WRITING: [Fault; 13] = [
        Fault::TwoSpaces,
        Fault::NoLastSpace,
        Fault::ReturnedLine,
        Fault::NeighbourText,
        Fault::TabWritten,
        Fault::RowsReversed,
        Fault::VocabularyUnknown,
        Fault::LastUnasked,
        Fault::FullFirst,
        Fault::ByteShort,
        Fault::OutputLeft,
        Fault::RestLeft,
        Fault::FirstPlaces,
    ];

    /// The name by which the command line calls a fault.
    pub fn name(self) -> &'static str {
        match self {
            Fault::CountPaths => "count-paths",
            Fault::TypeLiterals => "type-literals",
            Fault::DropExplicit => "drop-explicit",
            Fault::LimitDepth => "limit-depth",
            Fault::SkipStatements => "skip-statements",
            Fault::OrderRotated => "order-rotated",
            Fault::ReflexivePairs => "reflexive-pairs",
            Fault::LoopsLost => "loops-lost",
            Fault::StepsMixed => "steps-mixed",
            Fault::ClassInherited => "class-inherited",
            Fault::ClosedKept => "closed-kept",
            Fault::BoundExplicit => "bound-explicit",
            Fault::OverlongForm => "overlong-form",
            Fault::SurrogateEscape => "surrogate-escape",
            Fault::BarredEscape => "barred-escape",
            Fault::RelativeIri => "relative-iri",
            Fault::LabelDot => "label-dot",
            Fault::LabelEdge => "label-edge",
            Fault::TagCapitals => "tag-capitals",
            Fault::StringType => "string-type",
            Fault::TabEscape => "tab-escape",
            Fault::UrisFromOne => "uris-from-one",
            Fault::VocabularyEntries => "vocabulary-entries",
            Fault::ObjectFirst => "object-first",
            Fault::DeliveryFirst => "delivery-first",
            Fault::EntriesLeft => "entries-left",
            Fault::SectionsSwapped => "sections-swapped",
            Fault::CopyDropped => "copy-dropped",
            Fault::LongDelivery => "long-delivery",
            Fault::BytesBehind => "bytes-behind",
            Fault::TextTwice => "text-twice",
            Fault::OtherTexts => "other-texts",
            Fault::LengthCut => "length-cut",
            Fault::FirstSegment => "first-segment",
            Fault::TwoSpaces => "two-spaces",
            Fault::NoLastSpace => "no-last-space",
            Fault::ReturnedLine => "returned-line",
            Fault::NeighbourText => "neighbour-text",
            Fault::TabWritten => "tab-written",
            Fault::RowsReversed => "rows-reversed",
            Fault::VocabularyUnknown => "vocabulary-unknown",
            Fault::LastUnasked => "last-unasked",
            Fault::FullFirst => "full-first",
            Fault::ByteShort => "byte-short",
            Fault::OutputLeft => "output-left",
            Fault::RestLeft => "rest-left",
            Fault::FirstPlaces => "first-places",
        }
    }
}
