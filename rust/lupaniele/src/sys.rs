//! The exported functions as the proved archives have them: the one place in this workspace that declares them. A slice
//! is a pointer and a length, an array or a number that is written is a pointer; the names are those of the sources.
//! What each answers is said in `include/lupaniele.h`. Safe calls of all of them are in [`crate::raw`].

#[allow(unsafe_code)]
unsafe extern "C" {
    pub fn lupaniele_make(image: *mut u8, image_length: usize, cards: u64, room: u64) -> u8;

    pub fn lupaniele_sound(image: *const u8, image_length: usize) -> bool;

    pub fn lupaniele_answer(
        image: *mut u8,
        image_length: usize,
        command: *const u8,
        command_length: usize,
        reply: *mut u8,
        reply_length: usize,
        fields: *mut [u64; 7],
    ) -> u8;

    pub fn lupaniele_make_v2(image: *mut u8, image_length: usize, cards: u64, room: u64) -> u8;

    pub fn lupaniele_sound_v2(image: *const u8, image_length: usize) -> bool;

    pub fn lupaniele_answer_v2(
        image: *mut u8,
        image_length: usize,
        command: *const u8,
        command_length: usize,
        reply: *mut u8,
        reply_length: usize,
        fields: *mut [u64; 7],
    ) -> u8;

    pub fn lupaniele_convert(
        image: *const u8,
        image_length: usize,
        target: *mut u8,
        target_length: usize,
    ) -> u8;

    pub fn lupaniele_ask(
        modes: *mut [u8; 32],
        s: *mut [u64; 32],
        x: *mut [u64; 32],
        kept: *mut [u64; 3],
        places: u64,
        mode: u8,
        asked_s: u64,
        asked_x: u64,
        fields: *mut [u64; 4],
    ) -> u8;

    pub fn lupaniele_leave(
        modes: *mut [u8; 32],
        s: *mut [u64; 32],
        x: *mut [u64; 32],
        kept: *mut [u64; 3],
        places: u64,
        desk: u32,
        fields: *mut [u64; 4],
    ) -> u8;

    pub fn lupaniele_lapse(
        modes: *mut [u8; 32],
        s: *mut [u64; 32],
        x: *mut [u64; 32],
        kept: *mut [u64; 3],
        places: u64,
        desk: u32,
        period: f64,
        drift: f64,
        begin: f64,
        time: f64,
        fields: *mut [u64; 4],
    ) -> u8;

    pub fn lupaniele_learn(known: *mut [u64; 2], s: u64, x: u64);

    pub fn lupaniele_propose(
        desk: u16,
        start: u16,
        known: *mut [u64; 2],
        mode: u8,
        pair: *mut [u64; 2],
    ) -> u8;

    pub fn lupaniele_shown(
        original: *const u8,
        original_size: usize,
        translation: *const u8,
        translation_size: usize,
        original_length: u64,
        translation_length: u64,
        edition: u16,
        from: u16,
        asked: u8,
        count: *mut u64,
    ) -> u8;

    pub fn lupaniele_next(stream: *const u8, stream_length: usize, at: u64, end: *mut u64) -> bool;

    pub fn lupaniele_end(stream: *const u8, stream_length: usize) -> u64;

    pub fn lupaniele_next_v2(
        stream: *const u8,
        stream_length: usize,
        at: u64,
        end: *mut u64,
    ) -> bool;

    pub fn lupaniele_end_v2(stream: *const u8, stream_length: usize) -> u64;

    pub fn lupaniele_run(
        image: *mut u8,
        image_length: usize,
        stream: *const u8,
        stream_length: usize,
        reply: *mut u8,
        reply_length: usize,
        lines: *mut u64,
        lines_length: usize,
        end: *mut u64,
    ) -> u64;

    pub fn lupaniele_run_v2(
        image: *mut u8,
        image_length: usize,
        stream: *const u8,
        stream_length: usize,
        reply: *mut u8,
        reply_length: usize,
        lines: *mut u64,
        lines_length: usize,
        end: *mut u64,
    ) -> u64;

    pub fn lupaniele_output(
        input: *const u8,
        input_length: usize,
        out: *mut u8,
        out_length: usize,
    ) -> u64;

    pub fn lupaniele_agree(
        first: *const u8,
        first_length: usize,
        second: *const u8,
        second_length: usize,
        place: *mut u64,
    ) -> u8;

    pub fn lupaniele_history_answer(
        kept: *mut [u8; 43168],
        used: *mut u64,
        cards: u16,
        room: u16,
        command: *const u8,
        command_length: usize,
        reply: *mut u8,
        reply_length: usize,
        fields: *mut [u64; 7],
    ) -> u8;

    pub fn lupaniele_log_check(log: *const u8, log_length: usize) -> u8;

    pub fn lupaniele_log_append(
        log: *mut u8,
        log_length: usize,
        kind: u8,
        body: *const u8,
        body_length: usize,
        stores: u64,
    ) -> u8;

    pub fn lupaniele_recover(
        log: *const u8,
        log_length: usize,
        image: *mut u8,
        image_length: usize,
        s: *const u64,
        s_length: usize,
        x: *const u64,
        x_length: usize,
        line: *mut u64,
    ) -> u8;

    pub fn lupaniele_heard(step: u8, line: u8, number: u8, mark: u16, seen: *mut [u16; 4]);

    pub fn lupaniele_next_step(
        log: *const u8,
        log_length: usize,
        desk: u16,
        card: u16,
        going: bool,
        seen: *const [u16; 4],
        line: *mut u64,
        transaction: *mut u64,
    ) -> u8;

    pub fn lupaniele_log_begin_again(log: *mut u8, log_length: usize) -> bool;
}
