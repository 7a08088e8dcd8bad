//! Deliberate errors, to see that the comparison finds them. The reference that tests use has none.

#[derive(Clone, Copy, PartialEq, Eq, Debug)]
pub enum Flaw {
    None,
    /// The last part of a read's group joined with equal(i, j) in place of equal(e, the read).
    JoinsIndexes,
    /// Shifting by the amount modulo the width.
    ShiftsModulo,
    /// Testing a factor for zero without its condition.
    FactorAlone,
    /// No value of one operand settles less.
    LessUnsettled,
    /// 0 at the first operand settles less, all ones at the second.
    LessExchanged,
    /// Less's constants of its own width, which is 0.
    LessOwnWidth,
    /// Testing an operand of less without its condition.
    LessAlone,
    /// The four operators of request 05 are not known: 3 in a table, and names in a text.
    SignedUnknown,
    /// Negate gives the vector not.
    NegateAsNot,
    /// Signed less compares as less does.
    SignedAsUnsigned,
    /// All ones at the first operand settles signed less, 0 at the second.
    SignedByOnes,
    /// The least at the first operand settles signed less, the greatest at the second.
    SignedExchanged,
    /// Shifting right fills with zeros.
    RightZeros,
    /// Shifting right by the amount modulo the width.
    RightModulo,
    /// An amount of the width or more settles a shift right.
    AmountSettles,
    /// The sixth term of a shift right's group with the amount's condition.
    SixthByAmount,
    /// Looking only at the branch that a marked test picked.
    PickedBranch,
    /// Checking an array's mark and not the index's condition.
    IndexUnasked,
    /// Asking the innermost store first.
    InnermostFirst,
    /// Of two cells with one slot and index the later counts.
    LaterCell,
    /// Counting a read's stores only down to the one that supplies the value.
    StepsToSource,
    /// Every slot is looked for (12) before any value is looked at (13).
    SlotsFirst,
    /// 8 is looked for after the terms' other refusals.
    ClashLast,
    /// 23 before 22.
    AllowanceFirst,
    /// The values are written although the allowance is too small.
    WritesRefused,
    /// Slots declared in the order of their first use.
    SlotsByUse,
    /// A slot declared for each of its variables.
    DeclaredAgain,
    /// A variable that is an operand named by its number, not by its slot.
    VariableByNumber,
    /// Bits lowest first.
    BitsReversed,
    /// No line feed after the last line.
    NoLastLineFeed,
    /// 24 where the room is just long enough.
    TextSpare,
    /// A carriage return is no white space.
    ReturnIsNoSpace,
    /// A symbol with @ or . first is a name.
    NamesWithAt,
    /// The commands' words are names.
    CommandsAreNames,
    /// A width may have a leading zero.
    LeadingZeros,
    /// A name of x and a digit is marked, whatever follows.
    MarkedByX,
    /// The place of the end is where the last word ends.
    EndAtLastWord,
    /// 35 at the end of the text.
    NoAssertAtEnd,
    /// The asserts are joined after the last one.
    JoinsLate,
    /// A sole assert of a name adds nothing.
    SoleNameBare,
    /// A constant that is there is used again.
    SharesConstants,
    /// 34 at the list's operator.
    CountAtList,
    /// The assert's own parenthesis counts among the 64.
    CountsTheAssert,
    /// 34 before 33 at one parenthesis.
    CountBeforeDepth,
    /// A reserved word is an operand that is not declared.
    ReservedUndeclared,
    /// 21 before 1 to 10.
    RoomFirst,
    /// Judging by the table's marks, whatever the sheet says.
    TableMarks,
    /// A slot in mark and keep lines is not marked.
    KeepWins,
    /// Of the lines that name a slot the first decides.
    FirstLine,
    /// The last slot of a line that names several is not named by it.
    LastSlotLeftOut,
    /// A slot that no line of a sheet names is not marked.
    UnnamedUnmarked,
    /// 16 at the highest faulty line.
    HighestLine,
    /// A last line that is cut short is not looked at.
    CutUnseen,
    /// A line of slots that no variable uses is not looked at.
    UsedLinesOnly,
    /// 16 after 11.
    SheetAfterCells,
    /// 16 before 1 to 10.
    SheetFirst,
    /// 8 by the marks that hold.
    ClashBySheet,
    /// A choice of arrays is refused 6.
    ArraysUnchosen,
    /// A choice between arrays with two index widths is admitted.
    IndexWidthUnasked,
    /// The size of a choice leaves out its second branch.
    OneBranchSize,
    /// The size of a choice goes by the greater branch.
    GreaterBranchSize,
    /// 9 means a size over 17.
    SeventeenAllowed,
    /// 9 at a read of an array that is too large, and nowhere else.
    OnlyReadSizes,
    /// 9 before 6 in one term.
    SizeBeforeSorts,
    /// A read's steps leave out the branches that are not taken.
    StepsOfBranch,
    /// A read follows a choice's first branch, whatever the test is.
    FirstArray,
    /// A choice of arrays has a truth, as other choices have.
    ArrayChoiceTruth,
    /// Looking only at the array that a marked test picked.
    PickedArray,
    /// A free test beside the condition of the branch that is not taken.
    OtherArrayFree,
    /// Branches that hold the same settle a read, whether they are free or not.
    EqualReadsAlone,
    /// The group of a choice's second branch before that of the first.
    SecondGroupFirst,
    /// A variable that a read's group meets again is written once.
    MetOnce,
    /// Equal of the reads of a choice's branches with the second's first.
    ReadsExchanged,
}

pub const FLAWS: [(&str, Flaw); 73] = [
    ("joins-indexes", Flaw::JoinsIndexes),
    ("shifts-modulo", Flaw::ShiftsModulo),
    ("factor-alone", Flaw::FactorAlone),
    ("less-unsettled", Flaw::LessUnsettled),
    ("less-exchanged", Flaw::LessExchanged),
    ("less-own-width", Flaw::LessOwnWidth),
    ("less-alone", Flaw::LessAlone),
    ("signed-unknown", Flaw::SignedUnknown),
    ("negate-as-not", Flaw::NegateAsNot),
    ("signed-as-unsigned", Flaw::SignedAsUnsigned),
    ("signed-by-ones", Flaw::SignedByOnes),
    ("signed-exchanged", Flaw::SignedExchanged),
    ("right-zeros", Flaw::RightZeros),
    ("right-modulo", Flaw::RightModulo),
    ("amount-settles", Flaw::AmountSettles),
    ("sixth-by-amount", Flaw::SixthByAmount),
    ("picked-branch", Flaw::PickedBranch),
    ("index-unasked", Flaw::IndexUnasked),
    ("innermost-first", Flaw::InnermostFirst),
    ("later-cell", Flaw::LaterCell),
    ("steps-to-source", Flaw::StepsToSource),
    ("slots-first", Flaw::SlotsFirst),
    ("clash-last", Flaw::ClashLast),
    ("allowance-first", Flaw::AllowanceFirst),
    ("writes-refused", Flaw::WritesRefused),
    ("slots-by-use", Flaw::SlotsByUse),
    ("declared-again", Flaw::DeclaredAgain),
    ("variable-by-number", Flaw::VariableByNumber),
    ("bits-reversed", Flaw::BitsReversed),
    ("no-last-line-feed", Flaw::NoLastLineFeed),
    ("text-spare", Flaw::TextSpare),
    ("return-is-no-space", Flaw::ReturnIsNoSpace),
    ("names-with-at", Flaw::NamesWithAt),
    ("commands-are-names", Flaw::CommandsAreNames),
    ("leading-zeros", Flaw::LeadingZeros),
    ("marked-by-x", Flaw::MarkedByX),
    ("end-at-last-word", Flaw::EndAtLastWord),
    ("no-assert-at-end", Flaw::NoAssertAtEnd),
    ("joins-late", Flaw::JoinsLate),
    ("sole-name-bare", Flaw::SoleNameBare),
    ("shares-constants", Flaw::SharesConstants),
    ("count-at-list", Flaw::CountAtList),
    ("counts-the-assert", Flaw::CountsTheAssert),
    ("count-before-depth", Flaw::CountBeforeDepth),
    ("reserved-undeclared", Flaw::ReservedUndeclared),
    ("room-first", Flaw::RoomFirst),
    ("table-marks", Flaw::TableMarks),
    ("keep-wins", Flaw::KeepWins),
    ("first-line", Flaw::FirstLine),
    ("last-slot-left-out", Flaw::LastSlotLeftOut),
    ("unnamed-unmarked", Flaw::UnnamedUnmarked),
    ("highest-line", Flaw::HighestLine),
    ("cut-unseen", Flaw::CutUnseen),
    ("used-lines-only", Flaw::UsedLinesOnly),
    ("sheet-after-cells", Flaw::SheetAfterCells),
    ("sheet-first", Flaw::SheetFirst),
    ("clash-by-sheet", Flaw::ClashBySheet),
    ("arrays-unchosen", Flaw::ArraysUnchosen),
    ("index-width-unasked", Flaw::IndexWidthUnasked),
    ("one-branch-size", Flaw::OneBranchSize),
    ("greater-branch-size", Flaw::GreaterBranchSize),
    ("seventeen-allowed", Flaw::SeventeenAllowed),
    ("only-read-sizes", Flaw::OnlyReadSizes),
    ("size-before-sorts", Flaw::SizeBeforeSorts),
    ("steps-of-branch", Flaw::StepsOfBranch),
    ("first-array", Flaw::FirstArray),
    ("array-choice-truth", Flaw::ArrayChoiceTruth),
    ("picked-array", Flaw::PickedArray),
    ("other-array-free", Flaw::OtherArrayFree),
    ("equal-reads-alone", Flaw::EqualReadsAlone),
    ("second-group-first", Flaw::SecondGroupFirst),
    ("met-once", Flaw::MetOnce),
    ("reads-exchanged", Flaw::ReadsExchanged),
];
