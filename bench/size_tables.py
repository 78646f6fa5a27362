"""Contains the tables of bench/sizes.py: things that are defined more than once, the code that only serves to keep an
analysis over a change, and the functions that search for a procedure's body. `CRATE/src: FILE..` in a table means whole
files, and `CRATE/src/FILE: NAME..` functions (in `specs` and `proofs` definitions and lemmas). Lines and names are
sorted."""
from __future__ import annotations

# Things that are defined more than once, each with the names of its definitions or functions. A name that doesn't exist isn't
# counted: the definitions that were replaced stay in the list.
CONCEPTS = {
    "definitions of which names are fields": "mark_declared_fields rename_fields_in_type records_in_type "
    "identifier_owners_in_type recorded fields_in_type fields_declared_in_block",
    "definitions that descend to a body": "path_to_body_in_block block_without_body body_at_path_in_block "
    "closing_name_at_path_in_block is_range_in_body_of_block body_bounds_in_block names_visible_at_path_in_block "
    "body_with_token_in_block",
    "functions that move a token index": "shifted_token_index shifted_token old_closing_token ordinals_in_changed_text "
    "index_in_changed_text shifted_leaf widen_difference",
    "relations of a changed body": "AreBindingsBeforeBodyChange AreBindingsBeforeBodyReplacement",
}

# The parts that wouldn't exist if every text were analysed from scratch. A file is counted as a whole if that is true
# of nearly all its lines. With a file of code, and with a function, the folder of its proofs is counted.
KEPT = """
ob0_analysis/proofs: GivenBack LastModule NewBody NoBegin OneBody Pieces Ways WiderRange
ob0_analysis/specs: BodyAfterFirstIdentifier LastModule OneBody ReuseConditions
ob0_analysis/specs/AnalysisInvariants: IsRightReanalysisFailure
ob0_analysis/src: changed_body differences last_module replaced_body
ob0_analysis/src/analysis: analyse_after_scanned_text reanalyse
ob0_analysis/src/module_parts: from_parts into_parts
ob0_analysis/src/scanned_text: analyse_after_module analyse_after_refusal from reanalyse reanalyse_module reanalyse_refused_text
ob0_analysis/src/scanned_text: reanalyse_with_changed_kinds reanalyse_with_same_tree
ob0_analysis/src/scanned_text: reanalysis_failure_after_module reanalysis_failure_after_refusal
ob0_parse/proofs: Carried FromTree Keeping Moved MovedParts MovedTokens Stays TakenOver TerminalsOfKinds
ob0_parse/specs: KeptTreeTokens ShiftedTrees
ob0_parse/specs/ModuleBlock: ReadsModuleProcedures block_with_procedures
ob0_parse/src: kept_trees leaf_shifts
ob0_parse/src/module_block: into_block_with_procedures parse_module_block parse_module_body parse_module_procedures
ob0_parse/src/module_block: parse_or_reuse_module_procedure
ob0_scan/proofs: Alike AtLexemes Fronts Halved Kept Named RescannedMiddle Reusing SameKinds
ob0_scan/specs: RescanResult RescanState ReusedLexemes SamePrefixAndSuffix
ob0_scan/specs/ScanRefusals: IsRightRescanFailure
ob0_scan/src: incremental_scan old_lexemes
ob0_scan/src/laws: new_middle_replaces_range
ob0_scan/src/scanner: scanner_after_known_lexemes
ob0_scan/src/tokens: copy lexeme_slices replace_middle
ob0_scope/proofs: AscendingTokens Bodies BodyBound BodyChanges BodySplit CarriedLists CarriedNames IdentifierWords NamesInBody
ob0_scope/proofs: NewBody PartitionPoints SameSpellings StillOnce WithoutRelabelled
ob0_scope/specs: BindingsBeforeBodyChange BindingsBeforeBodyReplacement BindingsOutsideBody NamesVisibleInBody SameSpellings
ob0_scope/src: body_range body_rebinding
ob0_scope/src/declaration_checks: has_duplicate_or_end_name_fault recheck_declarations
ob0_scope/src/laws: bindings_depend_only_on_names bindings_depend_only_on_spellings
ob0_scope/src/undeclared_names: undeclared_tokens
ob0_scope_numbering/proofs/Declaring: declaring
ob0_scope_numbering/specs: BodyScope
ob0_scope_numbering/src/numbering: declare_name_from_table declare_names_from_table renumber_body
ob0_scope_table/proofs: BodyOutside BodyPlaces BodyReplacement MappedAlike Moved OneBody Placed SameWords
ob0_scope_table/specs: BodyReplacement BoundsOfBodies SpellingChangesInOneBody TokenProperty
ob0_scope_table/src: one_body
ob0_tree/proofs: AscendingNumbers Firsts
ob0_tree/specs: FirstIdentifier
ob0_tree/src: first_identifiers
ob0_tree/src/tree: into_block into_procedures
ob0_types/proofs: OneBody SameSpellings
ob0_types/proofs/Among: among_further among_last
ob0_types/specs: NewBody SameSpellings
ob0_types/specs/OneBody: IsCheckResultBeforeBodyChange module_with_source
ob0_types/src/checked_modules: check_result_after_body_change check_result_after_body_replacement
ob0_types/src/laws: check_result_depends_only_on_spellings
ob0_types_check/proofs: SameFaults SameModules WalksOverSomeBodies
ob0_types_check/specs: EqualExceptBodies
ob0_types_check/specs/WalksOverSomeBodies: AllClosingNamesPass IncludesChangedAndFaultyBodies
ob0_types_check/specs/WalksOverSomeBodies: WalkingChangedAndFaultyBodiesSuffices faulty_bodies includes_body is_body_in_list
ob0_types_check/src/laws: walking_changed_and_faulty_bodies_suffices
ob0_types_check/src/reporting: includes_body module_report_walking_some_bodies
"""

# The functions that look in a tree for the body that contains a token.
SEARCHES = """
ob0_scope/src/body_range: find_body_in_block find_body_in_procedure
ob0_scope_table/src/one_body: body_bounds_in_block body_bounds_in_procedure body_bounds_in_tree
ob0_types/src/one_body: body_with_token_in_block body_with_token_in_procedure
"""

# Two changes of a valid module, each with the functions that are called only by other changes.
OTHER_WAYS = {
    "a letter in a name": """
ob0_analysis/src/analysis: analyse_text
ob0_analysis/src/scanned_text: analyse_after_refusal reanalyse_with_changed_kinds
""",
    "a statement": """
ob0_analysis/src/analysis: analyse_text
ob0_analysis/src/scanned_text: analyse_after_refusal reanalyse_with_same_tree
""",
}
