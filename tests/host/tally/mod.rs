//! What was met, counted: answers, refusals and their causes, and what the inputs were like; so that a comparison that
//! never met something is not taken for one that did.

pub mod answers;
pub mod build_causes;
pub mod build_refusals;
pub mod build_sights;
pub mod causes;
pub mod difference_sights;
pub mod family_refusals;
pub mod rebuild_sights;
pub mod refusals;
pub mod text_sights;
