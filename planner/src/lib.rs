//! The planner's desk. It knows formats and drawing and no rule of the protocol: whatever it says
//! about a run comes from the proved library.

pub mod chronicle;
pub mod commands;
pub mod evening;
pub mod explain;
pub mod library;
pub mod packets;
pub mod picture;
pub mod text;
pub mod words;
