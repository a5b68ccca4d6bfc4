//! The C interface, word for word from include/calduvren.h.

/// What the two entries that give a verdict have in common.
pub type Verdict = unsafe extern "C" fn(
    table: *const u8,
    table_length: usize,
    shares: usize,
    masks: usize,
    notion: usize,
    order: usize,
    set: *mut u16,
    set_length: usize,
    holds: *mut u64,
    size: *mut usize,
) -> u64;

extern "C" {
    pub fn calduvren_read_text(
        text: *const u8,
        text_length: usize,
        table: *mut u8,
        table_length: usize,
        order: *mut usize,
        shares: *mut usize,
        masks: *mut usize,
        wires: *mut usize,
        offset: *mut usize,
    ) -> u64;
    pub fn calduvren_text_part(
        text: *const u8,
        text_length: usize,
        table: *const u8,
        table_length: usize,
        wire: usize,
        offset: *mut usize,
        length: *mut usize,
    ) -> u64;
    pub fn calduvren_check_size(
        text: *const u8,
        text_length: usize,
        sets: *mut u64,
        sets_length: usize,
        order: *mut usize,
        shares: *mut usize,
        masks: *mut usize,
        wires: *mut usize,
        bytes: *mut usize,
        offset: *mut usize,
    ) -> u64;
    pub fn calduvren_function_check(
        table: *const u8,
        table_length: usize,
        shares: usize,
        masks: usize,
        function: usize,
        yes: *mut u64,
    ) -> u64;
    pub fn calduvren_verdict(
        table: *const u8,
        table_length: usize,
        shares: usize,
        masks: usize,
        notion: usize,
        order: usize,
        set: *mut u16,
        set_length: usize,
        holds: *mut u64,
        size: *mut usize,
    ) -> u64;
    pub fn calduvren_directed_verdict(
        table: *const u8,
        table_length: usize,
        shares: usize,
        masks: usize,
        notion: usize,
        order: usize,
        set: *mut u16,
        set_length: usize,
        holds: *mut u64,
        size: *mut usize,
    ) -> u64;
    pub fn calduvren_range_check(
        table: *const u8,
        table_length: usize,
        shares: usize,
        masks: usize,
        notion: usize,
        size: usize,
        from: u64,
        to: u64,
        set: *mut u16,
        set_length: usize,
        clean: *mut u64,
        found: *mut usize,
        rank: *mut u64,
    ) -> u64;
    pub fn calduvren_filed_report(
        notion: usize,
        size: usize,
        from: u64,
        to: u64,
        clean: u64,
        rank: u64,
        report: *mut u8,
        report_length: usize,
    ) -> u64;
    pub fn calduvren_pool(
        table: *const u8,
        table_length: usize,
        shares: usize,
        masks: usize,
        notion: usize,
        order: usize,
        reports: *const u8,
        reports_length: usize,
        answer: *mut u64,
        size: *mut usize,
        rank: *mut u64,
    ) -> u64;
    pub fn calduvren_set_dependence(
        table: *const u8,
        table_length: usize,
        shares: usize,
        masks: usize,
        notion: usize,
        set: *const u16,
        set_length: usize,
        of_a: *mut usize,
        of_b: *mut usize,
        allowed: *mut usize,
        masked: *mut u64,
    ) -> u64;
    pub fn calduvren_set_count(wires: usize, size: usize, sets: *mut u64) -> u64;
    pub fn calduvren_set_from_rank(wires: usize, size: usize, rank: u64, set: *mut u16, set_length: usize) -> u64;
    pub fn calduvren_rank_from_set(wires: usize, set: *const u16, set_length: usize, rank: *mut u64) -> u64;
    pub fn calduvren_job(wires: usize, size: usize, job: u64, jobs: u64, from: *mut u64, to: *mut u64) -> u64;
    pub fn calduvren_report_text(
        text: *const u8,
        text_length: usize,
        buffer: *mut u8,
        buffer_length: usize,
        length: *mut usize,
    ) -> u64;
    pub fn calduvren_isw_text(order: usize, text: *mut u8, text_length: usize, length: *mut usize) -> u64;
}
