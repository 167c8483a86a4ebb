//! The functions of include/segtrace.h, as it declares them.
//!
//! They ask for pointers that are not null, aligned and valid for the lengths given, and for lent places that overlap nothing else. The
//! arrays of a recorder have the lengths of [`crate::Recorder`]; a list of figures has 11 numbers, a price 3.

extern "C" {
    /// Whether the bytes are a sheet.
    pub fn segtrace_check(sheet: *const u8, sheet_length: usize) -> u64;

    /// The sheet read and written again.
    pub fn segtrace_rewrite(
        sheet: *const u8,
        sheet_length: usize,
        out: *mut u8,
        out_length: usize,
        written: *mut u64,
    ) -> u64;

    /// A sheet of form 1 in form 2.
    pub fn segtrace_to_form_2(
        sheet: *const u8,
        sheet_length: usize,
        out: *mut u8,
        out_length: usize,
        written: *mut u64,
    ) -> u64;

    /// A sheet of form 2 in form 1.
    pub fn segtrace_to_form_1(
        sheet: *const u8,
        sheet_length: usize,
        out: *mut u8,
        out_length: usize,
        written: *mut u64,
    ) -> u64;

    /// Two sheets as one.
    pub fn segtrace_join(
        first: *const u8,
        first_length: usize,
        second: *const u8,
        second_length: usize,
        out: *mut u8,
        out_length: usize,
        written: *mut u64,
    ) -> u64;

    /// A din trace as a sheet.
    pub fn segtrace_import_din(
        trace: *const u8,
        trace_length: usize,
        k: u64,
        sheet: *const u8,
        sheet_length: usize,
        out: *mut u8,
        out_length: usize,
        written: *mut u64,
    ) -> u64;

    /// The eleven figures of a row.
    pub fn segtrace_figures(sheet: *const u8, sheet_length: usize, row: u64, figures: *mut u64) -> u64;

    /// The figures of every row.
    pub fn segtrace_all_figures(
        sheet: *const u8,
        sheet_length: usize,
        out: *mut u64,
        out_length: usize,
        written: *mut u64,
    ) -> u64;

    /// The listing.
    pub fn segtrace_listing(
        sheet: *const u8,
        sheet_length: usize,
        out: *mut u8,
        out_length: usize,
        written: *mut u64,
    ) -> u64;

    /// The page for the binder.
    pub fn segtrace_page(
        sheet: *const u8,
        sheet_length: usize,
        out: *mut u8,
        out_length: usize,
        written: *mut u64,
    ) -> u64;

    /// The optimal schedule of a row.
    pub fn segtrace_optimal_schedule(
        sheet: *const u8,
        sheet_length: usize,
        row: u64,
        out: *mut u8,
        out_length: usize,
        written: *mut u64,
    ) -> u64;

    /// The schedule of the least total with stores counted, of a row of a sheet of form 4.
    pub fn segtrace_modified_schedule(
        sheet: *const u8,
        sheet_length: usize,
        row: u64,
        out: *mut u8,
        out_length: usize,
        written: *mut u64,
    ) -> u64;

    /// Memory, load and total of a schedule.
    pub fn segtrace_price(
        sheet: *const u8,
        sheet_length: usize,
        row: u64,
        schedule: *const u8,
        schedule_length: usize,
        price: *mut u64,
    ) -> u64;

    /// The bill of a row.
    pub fn segtrace_bill(
        sheet: *const u8,
        sheet_length: usize,
        row: u64,
        memory_rate: u64,
        load_rate: u64,
        minimum: u64,
        cents: *mut u64,
    ) -> u64;

    /// The margin of a reference.
    pub fn segtrace_margin(sheet: *const u8, sheet_length: usize, row: u64, reference: u64, margin: *mut i64) -> u64;

    /// A row within a ceiling.
    pub fn segtrace_size(sheet: *const u8, sheet_length: usize, ceiling: u64, row: *mut u64) -> u64;

    /// Misses with every number of frames, by stack distances, and the entries looked at.
    pub fn segtrace_lru(
        sheet: *const u8,
        sheet_length: usize,
        out: *mut u64,
        out_length: usize,
        written: *mut u64,
        looked: *mut u64,
    ) -> u64;

    /// The same by simulation.
    pub fn segtrace_lru_plain(
        sheet: *const u8,
        sheet_length: usize,
        out: *mut u64,
        out_length: usize,
        written: *mut u64,
    ) -> u64;

    /// wsocc for every window.
    pub fn segtrace_windows(
        sheet: *const u8,
        sheet_length: usize,
        out: *mut u64,
        out_length: usize,
        written: *mut u64,
    ) -> u64;

    /// Every operating point.
    pub fn segtrace_points(
        sheet: *const u8,
        sheet_length: usize,
        out: *mut u64,
        out_length: usize,
        written: *mut u64,
    ) -> u64;

    /// Fills a recorder.
    pub fn segtrace_recorder_start(
        sheet: *const u8,
        sheet_length: usize,
        head: *mut u64,
        counts: *mut u64,
        sizes: *mut u16,
        holds: *mut u16,
        h: *mut u16,
        d: *mut u16,
        last: *mut u16,
        sums: *mut u64,
    ) -> u64;

    /// Takes one reference.
    pub fn segtrace_recorder_touch(
        head: *const u64,
        counts: *mut u64,
        sizes: *const u16,
        holds: *const u16,
        h: *const u16,
        d: *const u16,
        last: *mut u16,
        sums: *mut u64,
        segment: u64,
    ) -> u64;

    /// Takes one step without a touch.
    pub fn segtrace_recorder_idle(counts: *mut u64) -> u64;

    /// Takes all references, or none.
    pub fn segtrace_recorder_touch_all(
        head: *const u64,
        counts: *mut u64,
        sizes: *const u16,
        holds: *const u16,
        h: *const u16,
        d: *const u16,
        last: *mut u16,
        sums: *mut u64,
        segments: *const u16,
        segments_length: usize,
    ) -> u64;

    /// The eleven figures of a row at this moment.
    pub fn segtrace_recorder_figures(
        head: *const u64,
        counts: *const u64,
        sizes: *const u16,
        holds: *const u16,
        h: *const u16,
        d: *const u16,
        last: *const u16,
        sums: *const u64,
        row: u64,
        figures: *mut u64,
    ) -> u64;
}
