//! The checks 21 to 29 (section 8), and what a request that passes asks for.

use crate::answers::Extent;
use crate::layout::{read_u64, EXTENTS};
use crate::request::{Request, Segment};
use crate::sheet::Disk;
use crate::terms::{Operation, Reason};

/// What the checks look at: a request of a known operation, the port's disk and its grants.
struct Case<'a> {
    operation: Operation,
    request: &'a Request,
    segments: Vec<Segment>,
    disk: &'a Disk,
    grants: &'a [u8],
}

/// What a request that passed asks for.
pub struct Work {
    pub operation: Operation,
    pub start: u64,
    pub count: u64,
    pub secure: bool,
    pub extents: Vec<Extent>,
}

/// Whether a case is at fault.
type Check<'a> = fn(&Case<'a>) -> bool;

/// Rule 8.2: one check after another, by number.
pub fn judge(request: &Request, disk: &Disk, grants: &[u8]) -> Result<Work, Reason> {
    let operation = Operation::from_byte(request.operation).ok_or(Reason::UnknownOperation)?;
    let case = Case::new(operation, request, disk, grants);
    let checks: [(Reason, Check); 7] = [
        (Reason::FeatureOff, Case::feature_off),
        (Reason::ReadOnly, Case::read_only),
        (Reason::WrongAmount, Case::wrong_amount),
        (Reason::WrongSegment, Case::segment_unsound),
        (Reason::NotGranted, Case::frame_not_granted),
        (Reason::PastEnd, Case::outside_disk),
        (Reason::Unaligned, Case::unaligned),
    ];
    for (reason, at_fault) in checks {
        if at_fault(&case) {
            return Err(reason);
        }
    }
    Ok(case.work())
}

impl<'a> Case<'a> {
    fn new(
        operation: Operation,
        request: &'a Request,
        disk: &'a Disk,
        grants: &'a [u8],
    ) -> Case<'a> {
        let count = match operation {
            Operation::Read | Operation::Write | Operation::Barrier => request.count_or_flag,
            Operation::Flush | Operation::Discard => 0,
        };
        // A count above 11 ends at check 25, before any segment is looked at.
        let segments = request
            .body
            .chunks_exact(8)
            .take(usize::from(count))
            .map(Segment::read)
            .collect();
        Case {
            operation,
            request,
            segments,
            disk,
            grants,
        }
    }

    /// Rules 2.9 and 5.23: a discard that asks for it, on a disk that has it.
    fn secure(&self) -> bool {
        let asked = self.request.count_or_flag & 1 == 1;
        self.operation == Operation::Discard && asked && self.disk.secure
    }

    /// A discard's number of sectors (rule 2.8).
    fn discard_count(&self) -> u64 {
        read_u64(&self.request.body, 0)
    }

    /// Start and count on disk; none for a flush and an empty barrier (rule 8.7).
    /// Asked only once check 26 has passed.
    fn disk_range(&self) -> Option<(u64, u64)> {
        match self.operation {
            Operation::Flush => None,
            Operation::Barrier if self.segments.is_empty() => None,
            Operation::Discard => Some((self.request.start, self.discard_count())),
            _ => {
                let count = self.segments.iter().map(Segment::length).sum();
                Some((self.request.start, count))
            }
        }
    }

    /// 22: the operation's feature is off.
    fn feature_off(&self) -> bool {
        !self.disk.offers(self.operation)
    }

    /// 24: something other than reading on a disk in mode r.
    fn read_only(&self) -> bool {
        let changes = matches!(
            self.operation,
            Operation::Write | Operation::Barrier | Operation::Discard
        );
        changes && !self.disk.writable
    }

    /// 25: a number of segments, or of a discard's sectors, that the operation cannot have.
    fn wrong_amount(&self) -> bool {
        let n = usize::from(self.request.count_or_flag);
        match self.operation {
            Operation::Read | Operation::Write => !(1..=EXTENTS).contains(&n),
            Operation::Barrier => n > EXTENTS,
            Operation::Flush => n != 0,
            Operation::Discard => self.discard_count() == 0,
        }
    }

    /// 26: a segment that is no run of sectors within a frame.
    fn segment_unsound(&self) -> bool {
        !self.segments.iter().all(Segment::is_sound)
    }

    /// 27: a frame without the right that the operation needs.
    fn frame_not_granted(&self) -> bool {
        !self.segments.iter().all(|segment| self.granted(segment))
    }

    /// Rules 8.3 to 8.6.
    fn granted(&self, segment: &Segment) -> bool {
        let grant = self.grants.get(segment.frame as usize).copied();
        match self.operation {
            Operation::Read => grant == Some(2),
            _ => matches!(grant, Some(1 | 2)),
        }
    }

    /// 28: beyond the end of the disk, by a sum that cannot wrap.
    fn outside_disk(&self) -> bool {
        self.disk_range().is_some_and(|(start, count)| {
            u128::from(start) + u128::from(count) > u128::from(self.disk.sectors)
        })
    }

    /// 29: start, count or some segment not in whole units. Only reads, writes and barriers have
    /// segments (rule 8.8).
    fn unaligned(&self) -> bool {
        let unit = self.disk.unit();
        let range_unaligned = self
            .disk_range()
            .is_some_and(|(start, count)| start % unit != 0 || count % unit != 0);
        range_unaligned || !self.segments.iter().all(|it| it.is_aligned(unit))
    }

    /// Rules 5.23 to 5.25.
    fn work(&self) -> Work {
        let (start, count) = self.disk_range().unwrap_or((0, 0));
        Work {
            operation: self.operation,
            start,
            count,
            secure: self.secure(),
            extents: self.extents(start),
        }
    }

    /// Rules 5.26 to 5.28.
    fn extents(&self, start: u64) -> Vec<Extent> {
        let mut disk_sector = start;
        let mut extents = Vec::new();
        for segment in &self.segments {
            extents.push(Extent {
                frame: segment.frame,
                first_sector: segment.first,
                length: segment.length(),
                disk_sector,
            });
            // Check 28 has passed, so this stays within the disk.
            disk_sector += segment.length();
        }
        extents
    }
}
