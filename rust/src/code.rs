//! Names of the codes that include/kozbrax.h explains. 1 to 9 are a server's, as its answer says, and so is 27.

pub const DONE: u32 = 0;
pub const NO_ANSWER_TO_THE_REQUEST: u32 = 10;
pub const SERVER_REFUSED: u32 = 11;
pub const LABELS_TOO_FAR_APART: u32 = 12;
pub const BELOW_THE_VERSION: u32 = 13;
pub const RECORD_NOT_SIGNED: u32 = 14;
pub const NOT_THE_OWN_DIGEST: u32 = 15;
pub const NOT_THE_RECORDS_DIGEST: u32 = 16;
pub const NO_SIGNATURE_NUMBER_LEFT: u32 = 17;
pub const WRITE_IS_OPEN: u32 = 18;
pub const ENTRY_NOT_ALLOWED: u32 = 19;
pub const LOG_IS_FULL: u32 = 20;
pub const BUFFER_TOO_SHORT: u32 = 21;
pub const SETTINGS_OUT_OF_RANGE: u32 = 22;
pub const ENTRY_NOT_IN_THE_LOG: u32 = 23;
pub const POSITION_OUT_OF_RANGE: u32 = 24;
pub const NO_SCHEDULE_BY_THE_RULES: u32 = 26;
pub const NOT_THE_RESERVED_HEAD: u32 = 27;
pub const NO_WRITE_TO_GIVE_UP: u32 = 28;
pub const STARTS_NOT_ALLOWED: u32 = 32;
pub const HOURS_NOT_ALLOWED: u32 = 33;
pub const NO_START_IN_THE_HOURS: u32 = 34;
