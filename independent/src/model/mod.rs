//! The second opinion: the rules of document 01 and of requests L1 to L5, written anew from the
//! papers. It needs nothing of the other folders, and can be read by itself, best in this order.

// The registers, with the SCL times (L2) and the two starts (L5).
pub mod registers;
pub mod start;

// The hub, and who hears an address.
pub mod addresses;
pub mod hub;

// Frames, and the packets that leave: the pixels packed and unpacked (L3), header and checksum.
pub mod checksum;
pub mod format;
pub mod frames;
pub mod header;
pub mod packet;
pub mod pixels;

// The numbers of the refusals.
pub mod refusal;

// Traces, the answers to their records as they are printed, and the player.
pub mod answer;
pub mod player;
pub mod text;
pub mod trace;
pub mod trace_builder;

// Installers' scripts, turned into traces and back (L1).
pub mod convert;
pub mod script_line;
