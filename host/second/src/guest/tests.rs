//! Calls at the wrap of the indices, which calls alone would take too long to reach, on pages computed
//! by hand.

use super::*;

/// A guest that stands at these indices, with these requests outstanding.
fn guest_at(put: u32, collected: u32, outstanding: &[(u64, u8)]) -> Guest {
    assert_eq!(put.wrapping_sub(collected) as usize, outstanding.len());
    Guest {
        put,
        collected,
        outstanding: outstanding.to_vec(),
    }
}

/// A page of one byte all over, with these indices in its header.
fn page_of(byte: u8, header: [u32; 4]) -> Vec<u8> {
    let mut page = vec![byte; PAGE_BYTES];
    for (at, value) in [REQ_PROD, REQ_EVENT, RSP_PROD, RSP_EVENT]
        .into_iter()
        .zip(header)
    {
        write_u32(&mut page, at, value);
    }
    page
}

/// A flush.
fn flush(id: u64) -> RequestWords {
    let mut words = [0; 41];
    (words[OPERATION], words[ID]) = (3, id);
    words
}

const LAST: u32 = u32::MAX;

#[test]
fn put_at_the_wrap() {
    let mut request = [u64::MAX; 41];
    request[..6].copy_from_slice(&[1, 0x1122_3344_5566_7788, 0x0102_0304_0506_0708, 2, 9, 9]);
    request[8..14].copy_from_slice(&[0xFFFF_FFFF, 0, 7, 5, 7, 7]);
    for (req_event, notify) in [(0, true), (LAST, false), (1, false)] {
        let mut guest = guest_at(LAST, LAST, &[]);
        let mut page = page_of(0xEE, [7, req_event, 8, 9]);
        let mut due = page.clone();
        assert_eq!(guest.put(&mut page, &request), Ok(notify));
        due[0..4].copy_from_slice(&[0, 0, 0, 0]);
        due[3536..3648].fill(0);
        due[3536..3538].copy_from_slice(&[0x01, 0x02]);
        due[3544..3552].copy_from_slice(&[0x88, 0x77, 0x66, 0x55, 0x44, 0x33, 0x22, 0x11]);
        due[3552..3560].copy_from_slice(&[0x08, 0x07, 0x06, 0x05, 0x04, 0x03, 0x02, 0x01]);
        due[3560..3568].copy_from_slice(&[0xFF, 0xFF, 0xFF, 0xFF, 0x00, 0x07, 0x00, 0x00]);
        due[3568..3576].copy_from_slice(&[0x05, 0x00, 0x00, 0x00, 0x07, 0x07, 0x00, 0x00]);
        assert_eq!(page, due);
        assert_eq!(guest, guest_at(0, LAST, &[(0x1122_3344_5566_7788, 1)]));
    }
}

#[test]
fn put_behind_the_wrap() {
    let mut guest = guest_at(0, LAST, &[(5, 0)]);
    let mut page = page_of(0, [0, 1, LAST, 0]);
    assert_eq!(guest.put(&mut page, &flush(6)), Ok(true));
    let mut due = page_of(0, [1, 1, LAST, 0]);
    (due[64], due[72]) = (3, 6);
    assert_eq!(page, due);
}

#[test]
fn full_over_the_wrap() {
    let mut guest = guest_at(LAST - 20, LAST - 20, &[]);
    let mut page = page_of(0, [LAST - 20, 0, LAST - 20, 0]);
    for id in 0..32 {
        let notify = id == 20;
        assert_eq!(guest.put(&mut page, &flush(id)), Ok(notify), "{id}");
    }
    assert_eq!(read_u32(&page, REQ_PROD), 11);
    let (before, guest_before) = (page.clone(), guest.clone());
    assert_eq!(guest.put(&mut page, &flush(99)), Err(Refusal::RingFull));
    assert_eq!((page, guest), (before, guest_before));
}

#[test]
fn collect_at_the_wrap() {
    let outstanding = [(0x1122_3344_5566_7788, 0), (5, 3)];
    let mut guest = guest_at(1, LAST, &outstanding);
    let mut page = page_of(0xEE, [1, 0, 0, 0]);
    page[3536..3548].copy_from_slice(&[
        0x88, 0x77, 0x66, 0x55, 0x44, 0x33, 0x22, 0x11, 0x00, 0xEE, 0xFE, 0xFF,
    ]);
    for rsp_prod in [2, 3, 32, LAST - 1, 1 << 31] {
        write_u32(&mut page, RSP_PROD, rsp_prod);
        let before = page.clone();
        assert_eq!(guest.collect(&mut page), Err(Refusal::BadRspProd));
        assert_eq!(page, before);
        assert_eq!(guest, guest_at(1, LAST, &outstanding));
    }
    for rsp_prod in [0, 1] {
        write_u32(&mut page, RSP_PROD, rsp_prod);
        let (mut guest, before) = (guest.clone(), page.clone());
        let response = Collected {
            id: 0x1122_3344_5566_7788,
            operation: 0,
            status: 0xFFFE,
        };
        assert_eq!(guest.collect(&mut page), Ok(Some(response)));
        assert_eq!(page, before);
        assert_eq!(guest, guest_at(1, 0, &[(5, 3)]));
    }
}

#[test]
fn nothing_at_the_wrap() {
    for (index, event) in [(LAST - 1, LAST), (LAST, 0), (0, 1)] {
        let mut guest = guest_at(index, index, &[]);
        let mut page = page_of(0xEE, [1, 2, index, 77]);
        assert_eq!(guest.collect(&mut page), Ok(None));
        assert_eq!(page, page_of(0xEE, [1, 2, index, event]));
        assert_eq!(guest, guest_at(index, index, &[]));
    }
}
