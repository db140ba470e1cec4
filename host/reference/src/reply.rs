//! What a call answers.

/// What a call on slots answers: an answer number of document 01, the count that is returned with it, and since request
/// M-101 the planes.
#[derive(Clone, Copy, Debug, PartialEq, Eq)]
pub struct Reply {
    /// 0 for done, otherwise the number of the refusal.
    pub answer: u32,
    /// What document 01's table says is returned.
    pub count: u32,
    /// "how many planes were written whole", or when reading "the planes it could read whole".
    pub planes: u32,
}

impl Reply {
    /// Answer 0, "done".
    pub fn done(count: usize, planes: u32) -> Reply {
        Reply { answer: 0, count: number(count), planes }
    }

    /// A refusal whose "count returned" is 0. "Refusals report 0."
    pub fn refused(answer: u32) -> Reply {
        Reply { answer, count: 0, planes: 0 }
    }

    /// A refusal that returns a number: 10 the bits that were needed, 11 of a copy the slot. It reports 0 planes too.
    pub fn needs(answer: u32, count: usize) -> Reply {
        Reply { answer, count: number(count), planes: 0 }
    }
}

/// What a call on streams answers: an answer number and its count.
#[derive(Clone, Copy, Debug, PartialEq, Eq)]
pub struct FpcReply {
    /// 0 for done, otherwise the number of the refusal.
    pub answer: u32,
    /// What document 01's table says is returned.
    pub count: u32,
}

impl FpcReply {
    /// Answer 0, "done".
    pub fn done(count: usize) -> FpcReply {
        FpcReply { answer: 0, count: number(count) }
    }

    /// A refusal whose "count returned" is 0.
    pub fn refused(answer: u32) -> FpcReply {
        FpcReply { answer, count: 0 }
    }

    /// A refusal that returns what was needed: 22.
    pub fn needs(answer: u32, count: usize) -> FpcReply {
        FpcReply { answer, count: number(count) }
    }
}

fn number(count: usize) -> u32 {
    u32::try_from(count).expect("every count is below 2^32")
}
