//! The exported entries: their numbers on the pipe, which crates/firmware/box.c has too, and their names in aat.h.

/// Numbers the entries from 1 on, in their order.
macro_rules! entries {
    ($first:ident $first_name:literal, $($entry:ident $name:literal,)*) => {
        /// An exported entry.
        #[derive(Clone, Copy, PartialEq)]
        pub enum Entry {
            $first = 1,
            $($entry,)*
        }

        /// The entries and their names, in the order of the numbers.
        pub const ENTRIES: &[(Entry, &str)] = &[(Entry::$first, $first_name), $((Entry::$entry, $name),)*];
    };
}

entries! {
    Lookup "aat_lookup",
    Survey "aat_survey",
    ClassExtended "aat_class_extended",
    ClassClassic "aat_class_classic",
    LanguageIndex "aat_language_index",
    Fresh "aat_fresh",
    Verb "aat_verb",
    RearrangementPass "aat_rearrangement_pass",
    NoncontextualPass "aat_noncontextual_pass",
    ContextualPass "aat_contextual_pass",
    LigaturePass "aat_ligature_pass",
    InsertionPass "aat_insertion_pass",
    MorxPass "aat_morx_pass",
    MorxRun "aat_morx_run",
    RearrangementStep "aat_rearrangement_step",
    ContextualStep "aat_contextual_step",
    LigatureStep "aat_ligature_step",
    InsertionStep "aat_insertion_step",
    KernPair "aat_kern_pair",
    KerxPair "aat_kerx_pair",
    KernPass "aat_kern_pass",
    KerxPass "aat_kerx_pass",
    KernRun "aat_kern_run",
    KerxRun "aat_kerx_run",
    KernStep "aat_kern_step",
    KerxStep "aat_kerx_step",
    MorxChains "aat_morx_chains",
    MorxNextChain "aat_morx_next_chain",
    MorxNextFeature "aat_morx_next_feature",
    MorxNextSubtable "aat_morx_next_subtable",
    MorxOrder "aat_morx_order",
    MorxShouldReverse "aat_morx_should_reverse",
    KernSubtables "aat_kern_subtables",
    KerxSubtables "aat_kerx_subtables",
    KernNextSubtable "aat_kern_next_subtable",
    KerxNextSubtable "aat_kerx_next_subtable",
    Insert "aat_insert",
    LookupWhy "aat_lookup_why",
    KernPairWhy "aat_kern_pair_why",
    KerxPairWhy "aat_kerx_pair_why",
    KernPassBy "aat_kern_pass_by",
    KerxPassBy "aat_kerx_pass_by",
    KernRunBy "aat_kern_run_by",
    KerxRunBy "aat_kerx_run_by",
    Mend "aat_mend",
    StoreLine "aat_store_line",
    ReadLine "aat_read_line",
    MorxRunWith "aat_morx_run_with",
    KerxStepBy "aat_kerx_step_by",
    KerxPassAnchored "aat_kerx_pass_anchored",
    KerxRunAnchored "aat_kerx_run_anchored",
    AnchorStep "aat_anchor_step",
    MortRun "aat_mort_run",
    MortPass "aat_mort_pass",
    MortNextChain "aat_mort_next_chain",
    MortNextSubtable "aat_mort_next_subtable",
    MorxReel "aat_morx_reel",
    MortReel "aat_mort_reel",
    IndexClasses "aat_index_classes",
    MorxPassIndexed "aat_morx_pass_indexed",
    KerxPassIndexed "aat_kerx_pass_indexed",
    KerningReport "aat_kerning_report",
}
