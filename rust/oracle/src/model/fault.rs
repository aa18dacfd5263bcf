//! The faults that tests plant in the model, to see that the comparisons find
//! each.

macro_rules! faults {
    (rules { $($rule:ident,)* } lists { $($list:ident,)* } after { $($after:ident,)* }) => {
        #[derive(Clone, Copy, Debug, PartialEq, Eq)]
        pub enum Fault {
            /// Document 01 as it stands.
            None,
            $($rule,)*
            $($list,)*
            $($after,)*
        }

        impl Fault {
            /// Faults in a rule, which the cases show beside the original.
            pub const RULES: &'static [Fault] = &[$(Fault::$rule,)*];
            /// Faults in what a pick takes, which show on image lists made for
            /// them or on kinds that are refused.
            pub const LISTS: &'static [Fault] = &[$(Fault::$list,)*];
            /// Faults in a call after the picker.
            pub const AFTER: &'static [Fault] = &[$(Fault::$after,)*];
        }
    };
}

faults! {
rules {
    // Sheet.
    NegativeZeroKept,
    // Leaves.
    HalvesToEven,
    // Rules 1 and 2.
    PhaseRemainderKeepsSign,
    MovedTowardFirst,
    MovedTowardPreviousAsRead,
    SphereNotMoved,
    TorusVNotMoved,
    JoinWithPreviousRing,
    ClosingJoinOmitted,
    // Rule 3.
    BandOnlyByFirstRing,
    BandVScalePiPasses,
    VScaleCapped,
    UScaleNotCapped,
    ScaleAtLimitPasses,
    // Rule 4.
    JoinTurnOnSphere,
    JoinTurnOmitted,
    JoinAtLimitRefused,
    JoinByUncappedScale,
    // Rule 5.
    PeriodFromUncappedScale,
    // Rule 6.
    VOuterLoop,
    GridWithoutLastColumn,
    // Rule 7.
    AnyRingCovers,
    InsideAtOrAbove,
    InsideAtOrLeft,
    InsideOnCylinder,
    WindingBNotMoved,
    WindingByMidpointOfUnmovedB,
    WindingAtOrAbove,
    BandSensesSwapped,
    BandSignIgnored,
    BandAbsentSenseForward,
    // Rule 8.
    ParameterNotClamped,
    ClearanceBNotMoved,
    ClearanceOffsetOmitted,
    // Rule 9.
    LastOfEqualClearances,
    CountOfImprovements,
    CountOfClearPoints,
    ClearanceAtLimitPasses,
    // The chart's answer.
    PhaseKeptInAnswer,
    PhaseKeptInWrittenPoints,
    ReadPointsWritten,
    // Point.
    PlaneCrossReversed,
    PlaneSumReordered,
    PhysicalClearanceReported,
    DeviationOfFirstRing,
    DeviationFourTimes,
    PhysicalClearanceAtLimitPasses,
    AnswerIsFirstImage,
}
lists {
    // Check 8.
    PlanePickOnOther,
    // Check 10.
    ImageListOfPointsAlone,
    ImageListMayBeLonger,
    ImageAtLimitRefused,
    NegativeImageUnbounded,
    LastImageUnchecked,
    // Point.
    ImagesOfRingsReversed,
    RingsJoinedInSpace,
    LastSegmentInSpaceOmitted,
    AnswerWithoutNegativeZero,
}
after {
    // Check 16.
    NumberAtLimitRefused,
    NegativeNumberUnbounded,
    // sample_parameter.
    SeventeenthSample,
    FirstSampleByFormula,
    LastSampleByFormula,
    SamplePartFirst,
    SampleNotClamped,
    SampleClampedAsGiven,
    // The direction test.
    DirectionTieReversed,
    DirectionByTheEnd,
    KeepBeforeReversal,
    KeepAtLimit,
    KeepByEitherEnd,
    DistanceByOneRoot,
    // Triangle.
    AnyFlag,
    FlagIgnored,
    SenseFirst,
    CircleCentreAtLimit,
    CircleRadiusAtLimit,
    SweepAtLimit,
    SweepSigned,
    EvaluatedAfterReversal,
    EvaluatedAtLimit,
    SphereAtLimit,
    UnitAtLimit,
    GapsWhileWalking,
    LastGapOmitted,
    GapAtLimit,
    SumOfEnds,
    SumNotUnit,
    SignDropped,
    AbsentSenseForward,
    ProductAtLimitPasses,
    FirstProductAlone,
    // Vertex fallback.
    FarCornersUnchecked,
    CornersAtLimitRefused,
    CornersNotInThrees,
    CornersCrossReversed,
    TripleStartsAtOne,
    TripleFromCornerOn,
    LastTripleServes,
    CentreSummedBackwards,
    DegenerateServes,
    DegenerateAtLimit,
    // Round fallback.
    FarAnglesUnchecked,
    AnglesAtLimitRefused,
    SpreadAtLimitPasses,
    NoAnglesBy22,
    HeightOfTheEnds,
    HeightBySpread,
    OneAngleItself,
    SeamGapOmitted,
    TurnAtLimitPasses,
    MiddleReduced,
    MiddleOfTheGap,
    RemainderKeepsSign,
    AnglesNotSorted,
    DedupAgainstNeighbour,
    DedupNotStrict,
    DedupAcrossSeam,
    // placed.
    TransformByColumns,
    InfinityPlaced,
    TranslationLast,
    RowSummedBackwards,
}
}
