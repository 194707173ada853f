// The functions as C has them.

use crate::{
    Check, FoundPrecedence, LampsReading, ParameterReading, Precedence, PrecedenceReading,
    Reference, ReferenceReading, WrittenPart,
};

extern "C" {
    pub fn naustvri_version() -> u32;
    pub fn naustvri_read_precedence(octets: *const u8, octets_len: usize) -> PrecedenceReading;
    pub fn naustvri_write_precedence(buffer: *mut u8, buffer_len: usize, value: Precedence) -> u8;
    pub fn naustvri_read_reference(octets: *const u8, octets_len: usize) -> ReferenceReading;
    pub fn naustvri_write_reference(buffer: *mut u8, buffer_len: usize, value: Reference) -> u8;
    pub fn naustvri_next_parameter(
        part: *const u8,
        part_len: usize,
        place: usize,
    ) -> ParameterReading;
    pub fn naustvri_find_precedence(part: *const u8, part_len: usize) -> FoundPrecedence;
    pub fn naustvri_write_optional(
        buffer: *mut u8,
        buffer_len: usize,
        list: *const u8,
        list_len: usize,
    ) -> WrittenPart;
    pub fn naustvri_check(table: *const u8, table_len: usize) -> Check;
    pub fn naustvri_event(
        table: *mut u8,
        table_len: usize,
        event: *const u8,
        event_len: usize,
        answer: *mut u8,
        answer_len: usize,
    ) -> u8;
    pub fn naustvri_list(
        table: *mut u8,
        table_len: usize,
        events: *const u8,
        events_len: usize,
        answers: *mut u8,
        answers_len: usize,
    ) -> u8;
    pub fn naustvri_figures(
        table: *mut u8,
        table_len: usize,
        events: *const u8,
        events_len: usize,
        answers: *mut u8,
        answers_len: usize,
        figures: *mut u64,
        figures_len: usize,
    ) -> u8;
    pub fn naustvri_lamps(table: *const u8, table_len: usize) -> LampsReading;
}
