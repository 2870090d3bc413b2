//! The library held against the second program, one module a subject.
//!
//! `SEED=12` takes another seed for what is made by chance, `ROUNDS=10` ten
//! times as many rounds of it.

mod checker;
mod damage;
mod forms_by_chance;
mod hostile;
mod hostile_messages;
mod hostile_strings;
mod items_by_chance;
mod lent;
mod objects;
mod pages;
mod rooms;
mod small_stack;
mod tables;
mod told;
mod vector_files;

// What is shared with the program that counts instructions.
#[path = "../../src/bin/linear/hostile_batches.rs"]
mod hostile_batches;
#[path = "../../src/bin/linear/hostile_faults.rs"]
mod hostile_faults;
#[path = "../../src/bin/linear/hostile_pairs.rs"]
mod hostile_pairs;
#[path = "../../src/bin/linear/hostile_sheets.rs"]
mod hostile_sheets;
#[path = "../../src/bin/linear/hostile_tables.rs"]
mod hostile_tables;

// What is shared with the tests of the second program.
#[path = "../../../../second/tests/all/batches.rs"]
mod batches;
#[allow(dead_code)]
#[path = "../../../../second/tests/all/chance.rs"]
mod chance;
#[allow(dead_code)]
#[path = "../../../../second/tests/all/every.rs"]
mod every;
#[allow(dead_code)]
#[path = "../../../../second/tests/all/makers.rs"]
mod makers;
#[allow(dead_code)]
#[path = "../../../../second/tests/all/notation.rs"]
mod notation;
#[path = "../../../../second/tests/all/objects_within.rs"]
mod objects_within;
#[allow(dead_code)]
#[path = "../../../../second/tests/all/plain/mod.rs"]
mod plain;
#[path = "../../../../second/tests/all/sheets.rs"]
mod sheets;

mod reading;
mod reading_hostile;
mod reading_limits;

mod writing;
mod writing_corrupted;
mod writing_limits;
mod writing_small_tables;

mod normalising;
mod normalising_pairs;

mod comparing;
mod comparing_changed;
mod comparing_limits;
mod comparing_pairs;

mod measuring;
mod measuring_changed;
mod measuring_limits;
mod measuring_sheets;
mod measuring_written;

mod salvaging;
mod salvaging_batches;
mod salvaging_changed;
mod salvaging_limits;
mod salvaging_rules;

mod explaining;
mod explaining_changed;
mod explaining_evidence;
mod explaining_limits;
mod explaining_messages;
mod explaining_moved;
mod explaining_rules;
mod explaining_sets;

mod cuts;
mod cuts_of_objects;
mod explain_page;
mod format_page;
mod joining;
mod joining_limits;
mod joining_pairs;
mod kind_pairs;
mod missing;
mod missing_sizes;
mod one_call;
mod one_call_changed;
mod refusals_page;
mod salvage_page;
mod sheets_page;
mod stretches;
mod strings;
mod strings_limits;
mod strings_tables;
