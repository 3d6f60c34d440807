//! The numbers of the answers (rule 5.1).

/// Accepted; also an image made, a text shown, a lock asked for or left.
pub const ACCEPTED: u8 = 0;
/// The command is malformed; in the queue, its mode or stamps are.
pub const MALFORMED: u8 = 1;
/// The store has no card of this number.
pub const NO_SUCH_CARD: u8 = 2;
/// The pair is stale.
pub const STALE: u8 = 3;
/// The expected commit mark has another desk than the stored one, or a lower
/// transaction.
pub const MARK_DIFFERS: u8 = 4;
/// The payload is longer than the room.
pub const PAYLOAD_TOO_LONG: u8 = 5;
/// The translation to be read is behind, or the one to be written is of another
/// edition than the stored one.
pub const BEHIND: u8 = 6;
/// The original has edition 65,535, after which there is none.
pub const LAST_EDITION: u8 = 7;
/// The buffer is too short for the text.
pub const BUFFER_SHORT: u8 = 8;
/// The image is not sound.
pub const UNSOUND: u8 = 9;
/// The queue is bad.
pub const BAD_QUEUE: u8 = 10;
/// Asking is denied.
pub const DENIED: u8 = 11;
/// The desk stands in the queue already.
pub const ALREADY_STANDING: u8 = 12;
/// The queue is full.
pub const FULL: u8 = 13;
/// No fresh image can be made of this N, C and lent length.
pub const NOT_MADE: u8 = 14;
/// The desk does not stand in the queue.
pub const NOT_STANDING: u8 = 15;
/// The desk has no stamp of its own left above the one it knows.
pub const NO_STAMP_LEFT: u8 = 16;
/// A stamp's T is too far above that of the stored one.
pub const TOO_FAR_AHEAD: u8 = 17;
/// The first of two texts is ill formed.
pub const FIRST_ILL_FORMED: u8 = 18;
/// The second of two texts is ill formed.
pub const SECOND_ILL_FORMED: u8 = 19;
/// Two texts differ.
pub const TEXTS_DIFFER: u8 = 20;
/// A lease term or a time is out of its limits, or no number.
pub const LEASE_REFUSED: u8 = 21;
/// The wait for a silent desk is not over.
pub const STILL_WAITING: u8 = 25;
/// The history engine has no room for one more accepted command.
pub const HISTORY_FULL: u8 = 22;
/// The log is bad, or the record to be appended is.
pub const BAD_LOG: u8 = 23;
/// The log has no line or no room left.
pub const LOG_FULL: u8 = 24;
/// The append had fewer stores than it needs.
pub const APPEND_CUT: u8 = 26;
