//! The reader list and the frontier over it.

use crate::numbers::{first_of, Answer, Refusal, MOST_READERS};

#[derive(Clone, Copy, PartialEq, Eq, Debug)]
pub struct Head {
    pub id: u64,
    pub reliable: bool,
    pub acked: i64,
}

#[derive(Clone, PartialEq, Eq, Debug)]
pub struct ReaderList {
    /// How many readers it can hold.
    pub room: usize,
    pub heads: Vec<Head>,
}

impl ReaderList {
    pub fn new(room: usize) -> Answer<ReaderList> {
        let allowed = (1..=MOST_READERS).contains(&room);
        first_of(&[(!allowed, Refusal::LimitNotAllowed)])?;
        Ok(ReaderList {
            room,
            heads: Vec::new(),
        })
    }

    fn place(&self, id: u64) -> Option<usize> {
        self.heads.iter().position(|h| h.id == id)
    }

    pub fn match_reader(&mut self, id: u64, reliable: bool) -> Answer<()> {
        let bad = id == 0 || self.place(id).is_some();
        first_of(&[
            (!self.is_coherent(), Refusal::Incoherent),
            (bad, Refusal::BadReader),
            (self.heads.len() >= self.room, Refusal::ListFull),
        ])?;
        self.heads.push(Head {
            id,
            reliable,
            acked: 0,
        });
        Ok(())
    }

    pub fn depart(&mut self, id: u64) -> Answer<()> {
        let place = self.find(id)?;
        self.heads.remove(place);
        Ok(())
    }

    pub fn set_acked(&mut self, id: u64, acked: i64) -> Answer<()> {
        first_of(&[
            (!self.is_coherent(), Refusal::Incoherent),
            (acked < 0, Refusal::OutOfRange),
        ])?;
        let place = self.find(id)?;
        self.heads[place].acked = acked;
        Ok(())
    }

    /// Where the reader stands in the list.
    pub fn find(&self, id: u64) -> Answer<usize> {
        first_of(&[
            (!self.is_coherent(), Refusal::Incoherent),
            (id == 0 || self.place(id).is_none(), Refusal::BadReader),
        ])?;
        self.place(id).ok_or(Refusal::BadReader)
    }

    /// The smallest acked number over the reliable readers, at least 1; absent
    /// if there is none.
    pub fn frontier(&self) -> Answer<Option<i64>> {
        first_of(&[(!self.is_coherent(), Refusal::Incoherent)])?;
        let reliable = self.heads.iter().filter(|h| h.reliable);
        Ok(reliable.map(|h| h.acked.max(1)).min())
    }
}
