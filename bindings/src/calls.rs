//! The calls of include/mengkiloh.h.

extern "C" {
    pub fn mk_format(mesh: *mut u32, words: usize, marks: u32, cells: u32) -> u8;
    pub fn mk_format_edition(
        mesh: *mut u32,
        words: usize,
        marks: u32,
        cells: u32,
        edition: u32,
    ) -> u8;
    pub fn mk_build(
        mesh: *mut u32,
        words: usize,
        marks: u32,
        cells: u32,
        records: *const u32,
        count: usize,
        place: *mut u32,
    ) -> u8;
    pub fn mk_build_edition(
        mesh: *mut u32,
        words: usize,
        marks: u32,
        cells: u32,
        edition: u32,
        records: *const u32,
        count: usize,
        place: *mut u32,
    ) -> u8;
    pub fn mk_edition(mesh: *const u32, words: usize, edition: *mut u32) -> u8;
    pub fn mk_capacities(mesh: *const u32, words: usize, marks: *mut u32, cells: *mut u32) -> u8;
    pub fn mk_free(mesh: *const u32, words: usize, found: *mut u32, cell: *mut u32) -> u8;
    pub fn mk_live(
        mesh: *const u32,
        words: usize,
        out: *mut u32,
        room: usize,
        count: *mut u32,
    ) -> u8;
    pub fn mk_insert(
        mesh: *mut u32,
        words: usize,
        cell: u32,
        code: u32,
        marks: *const u32,
        count: usize,
    ) -> u8;
    pub fn mk_insert_licensed(
        mesh: *mut u32,
        words: usize,
        cell: u32,
        code: u32,
        licence: u32,
        marks: *const u32,
        count: usize,
    ) -> u8;
    pub fn mk_remove(mesh: *mut u32, words: usize, cell: u32) -> u8;
    pub fn mk_edits(
        mesh: *mut u32,
        words: usize,
        edits: *const u32,
        count: usize,
        tally: *mut u32,
        made: *mut usize,
    ) -> u8;
    pub fn mk_plan_check(
        mesh: *const u32,
        words: usize,
        edits: *const u32,
        edit_words: usize,
        wanted: *const u32,
        wanted_words: usize,
        second: *mut u32,
        second_words: usize,
        place: *mut usize,
    ) -> u8;
    pub fn mk_plan(
        mesh: *const u32,
        words: usize,
        wanted: *const u32,
        wanted_words: usize,
        out: *mut u32,
        room: usize,
        count: *mut usize,
    ) -> u8;
    pub fn mk_type(mesh: *const u32, words: usize, cell: u32, code: *mut u32) -> u8;
    pub fn mk_licence(mesh: *const u32, words: usize, cell: u32, licence: *mut u32) -> u8;
    pub fn mk_marks(mesh: *const u32, words: usize, cell: u32, at: *mut u32, count: *mut u32)
        -> u8;
    pub fn mk_sibling(
        mesh: *const u32,
        words: usize,
        cell: u32,
        facet: u32,
        half: *mut u32,
        way: *mut u32,
    ) -> u8;
    pub fn mk_cycle(
        mesh: *const u32,
        words: usize,
        cell: u32,
        facet: u32,
        out: *mut u32,
        room: usize,
        ways: *mut u32,
        ways_room: usize,
        count: *mut u32,
    ) -> u8;
    pub fn mk_border(mesh: *const u32, words: usize, cell: u32, facet: u32, yes: *mut u32) -> u8;
    pub fn mk_star(
        mesh: *const u32,
        words: usize,
        dimension: u32,
        mark: u32,
        out: *mut u32,
        room: usize,
        count: *mut u32,
    ) -> u8;
    pub fn mk_anchors(
        mesh: *const u32,
        words: usize,
        dimension: u32,
        mark: u32,
        out: *mut u32,
        room: usize,
        count: *mut u32,
    ) -> u8;
    pub fn mk_first_anchor(
        mesh: *const u32,
        words: usize,
        dimension: u32,
        mark: u32,
        found: *mut u32,
        half: *mut u32,
    ) -> u8;
    pub fn mk_neighbours(
        mesh: *const u32,
        words: usize,
        cell: u32,
        out: *mut u32,
        room: usize,
        count: *mut u32,
    ) -> u8;
    pub fn mk_lookup(
        mesh: *const u32,
        words: usize,
        set: *const u32,
        n: usize,
        found: *mut u32,
        half: *mut u32,
    ) -> u8;
    pub fn mk_cells(
        mesh: *const u32,
        words: usize,
        code: u32,
        out: *mut u32,
        room: usize,
        count: *mut u32,
    ) -> u8;
    pub fn mk_count(mesh: *const u32, words: usize, code: u32, count: *mut u32) -> u8;
    pub fn mk_points(
        mesh: *const u32,
        words: usize,
        positions: *const i16,
        numbers: usize,
        cell: u32,
        out: *mut f64,
        room: usize,
        corners: *mut u32,
    ) -> u8;
    pub fn mk_centre(
        mesh: *const u32,
        words: usize,
        positions: *const i16,
        numbers: usize,
        cell: u32,
        x: *mut f64,
        y: *mut f64,
        z: *mut f64,
    ) -> u8;
    pub fn mk_measure(
        mesh: *const u32,
        words: usize,
        positions: *const i16,
        numbers: usize,
        cell: u32,
        kind: *mut u32,
        measure: *mut f64,
    ) -> u8;
    pub fn mk_off_read(
        mesh: *mut u32,
        words: usize,
        positions: *mut i16,
        numbers: usize,
        text: *const u8,
        length: usize,
        place: *mut usize,
    ) -> u8;
    pub fn mk_off_write(
        mesh: *const u32,
        words: usize,
        positions: *const i16,
        numbers: usize,
        out: *mut u8,
        room: usize,
        length: *mut usize,
    ) -> u8;
    pub fn mk_whole(mesh: *const u32, words: usize) -> u8;
    pub fn mk_journal_begin(
        mesh: *const u32,
        words: usize,
        journal: *mut u32,
        journal_words: usize,
        start: *mut u32,
        start_words: usize,
    ) -> u8;
    pub fn mk_journal_insert(
        mesh: *mut u32,
        words: usize,
        journal: *mut u32,
        journal_words: usize,
        day: u32,
        cell: u32,
        code: u32,
        licence: u32,
        marks: *const u32,
        count: usize,
    ) -> u8;
    pub fn mk_journal_remove(
        mesh: *mut u32,
        words: usize,
        journal: *mut u32,
        journal_words: usize,
        day: u32,
        cell: u32,
    ) -> u8;
    pub fn mk_journal_on(
        journal: *const u32,
        journal_words: usize,
        start: *const u32,
        start_words: usize,
        day: u32,
        second: *mut u32,
        second_words: usize,
    ) -> u8;
    pub fn mk_licences(
        journal: *const u32,
        journal_words: usize,
        start: *const u32,
        start_words: usize,
        day: u32,
        mark: u32,
        second: *mut u32,
        second_words: usize,
        out: *mut u32,
        room: usize,
        count: *mut u32,
    ) -> u8;
    pub fn mk_journal_fold(
        journal: *mut u32,
        journal_words: usize,
        start: *mut u32,
        start_words: usize,
        day: u32,
    ) -> u8;
    pub fn mk_journal_whole(
        journal: *const u32,
        journal_words: usize,
        start: *const u32,
        start_words: usize,
    ) -> u8;
    pub fn mk_version() -> u32;
}
