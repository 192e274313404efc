//! The functions as the archive exports them. A slice is a pointer and a
//! length.

extern "C" {
    pub fn kajurnat_version() -> u32;

    pub fn kajurnat_is_sound(card: *const u8, card_len: usize) -> u8;

    pub fn kajurnat_card_bytes(members: u64) -> usize;

    pub fn kajurnat_setup(
        card: *mut u8,
        card_len: usize,
        members: u64,
        queues: *const u8,
        queues_len: usize,
        gets: u64,
        sets: u64,
        features: *const u8,
        features_len: usize,
    ) -> u8;

    pub fn kajurnat_setup_from(
        card: *mut u8,
        card_len: usize,
        setup: *const u8,
        setup_len: usize,
    ) -> u8;

    pub fn kajurnat_setup_write(
        setup: *mut u8,
        setup_len: usize,
        members: u64,
        queues: *const u8,
        queues_len: usize,
        gets: u64,
        sets: u64,
        features: *const u8,
        features_len: usize,
    ) -> usize;

    pub fn kajurnat_setup_read(
        setup: *const u8,
        setup_len: usize,
        members: *mut u8,
        queues: *mut u8,
        queues_len: usize,
        gets: *mut u8,
        sets: *mut u8,
        features: *mut u8,
        features_len: usize,
    ) -> u8;

    pub fn kajurnat_setup_read_v1(
        setup: *const u8,
        setup_len: usize,
        members: *mut u8,
        queues: *mut u8,
        queues_len: usize,
        gets: *mut u8,
        sets: *mut u8,
        features: *mut u8,
        features_len: usize,
    ) -> u8;

    pub fn kajurnat_command(
        card: *mut u8,
        card_len: usize,
        request: *const u8,
        request_len: usize,
        reply: *mut u8,
        reply_len: usize,
    ) -> usize;

    pub fn kajurnat_message(
        card: *mut u8,
        card_len: usize,
        message: *const u8,
        message_len: usize,
        reply: *mut u8,
        reply_len: usize,
    ) -> usize;

    pub fn kajurnat_hand_back(card: *mut u8, card_len: usize, member: u64) -> u8;

    pub fn kajurnat_wipe(card: *mut u8, card_len: usize, member: u64, generation: u32) -> u8;

    pub fn kajurnat_reset_card(card: *mut u8, card_len: usize, generation: u32) -> u8;

    pub fn kajurnat_store(
        card: *mut u8,
        card_len: usize,
        member: u64,
        part_type: u16,
        selector: u64,
        value: *const u8,
        value_len: usize,
    ) -> u8;

    pub fn kajurnat_load(
        card: *const u8,
        card_len: usize,
        member: u64,
        part_type: u16,
        selector: u64,
        value: *mut u8,
        value_len: usize,
    ) -> u8;

    pub fn kajurnat_member(
        card: *const u8,
        card_len: usize,
        member: u64,
        state: *mut u8,
        queues: *mut u8,
        gets: *mut u8,
        sets: *mut u8,
        held: *mut u16,
    ) -> u8;

    pub fn kajurnat_configuration(
        card: *const u8,
        card_len: usize,
        member: u64,
        bytes: *mut u8,
        bytes_len: usize,
        generation: *mut u32,
    ) -> u8;

    pub fn kajurnat_setup_of(
        card: *const u8,
        card_len: usize,
        setup: *mut u8,
        setup_len: usize,
    ) -> usize;

    pub fn kajurnat_restore_begin(card: *mut u8, card_len: usize, member: u64) -> u32;

    pub fn kajurnat_restore_feed(
        card: *mut u8,
        card_len: usize,
        member: u64,
        fragment: *const u8,
        fragment_len: usize,
    ) -> u32;

    pub fn kajurnat_restore_finish(card: *mut u8, card_len: usize, member: u64, id: u32) -> u32;

    pub fn kajurnat_restore_drop(card: *mut u8, card_len: usize, member: u64) -> u32;

    pub fn kajurnat_request_list_query(request: *mut u8, request_len: usize) -> usize;

    pub fn kajurnat_request_list_use(request: *mut u8, request_len: usize, mask: u64) -> usize;

    pub fn kajurnat_request_create(
        request: *mut u8,
        request_len: usize,
        member: u64,
        id: u32,
        kind: u8,
    ) -> usize;

    pub fn kajurnat_request_modify(
        request: *mut u8,
        request_len: usize,
        member: u64,
        id: u32,
        kind: u8,
    ) -> usize;

    pub fn kajurnat_request_query(
        request: *mut u8,
        request_len: usize,
        member: u64,
        id: u32,
    ) -> usize;

    pub fn kajurnat_request_destroy(
        request: *mut u8,
        request_len: usize,
        member: u64,
        id: u32,
    ) -> usize;

    pub fn kajurnat_request_metadata(
        request: *mut u8,
        request_len: usize,
        member: u64,
        id: u32,
        what: u8,
    ) -> usize;

    pub fn kajurnat_request_get(
        request: *mut u8,
        request_len: usize,
        member: u64,
        id: u32,
        which: u8,
        headers: *const u8,
        headers_len: usize,
    ) -> usize;

    pub fn kajurnat_request_set(
        request: *mut u8,
        request_len: usize,
        member: u64,
        id: u32,
        list: *const u8,
        list_len: usize,
    ) -> usize;

    pub fn kajurnat_request_mode(
        request: *mut u8,
        request_len: usize,
        member: u64,
        mode: u8,
    ) -> usize;

    pub fn kajurnat_reply_read(
        opcode: u16,
        what: u8,
        reply: *const u8,
        reply_len: usize,
        status: *mut u16,
        qualifier: *mut u16,
        sent_status: *mut u16,
        sent_qualifier: *mut u16,
    ) -> u8;

    pub fn kajurnat_difference_find(
        setup: *const u8,
        setup_len: usize,
        member: u64,
        full: *const u8,
        full_len: usize,
        later: *const u8,
        later_len: usize,
        part_type: u16,
        selector: u64,
        list: *mut u8,
        at: *mut u64,
        len: *mut u64,
    ) -> u8;

    pub fn kajurnat_difference_merge(
        setup: *const u8,
        setup_len: usize,
        member: u64,
        full: *const u8,
        full_len: usize,
        later: *const u8,
        later_len: usize,
        merged: *mut u8,
        merged_len: usize,
        written: *mut u64,
    ) -> u8;

    pub fn kajurnat_salvage(
        setup: *const u8,
        setup_len: usize,
        member: u64,
        damaged: *const u8,
        damaged_len: usize,
        list: *mut u8,
        list_len: usize,
        kept: *mut u8,
        kept_len: usize,
        dropped: *mut u32,
        dropped_len: usize,
        left: *mut u32,
    ) -> usize;
}
