//! A reader list with one fault. The crate has no list, so only runs against
//! the model can catch these.

use model::ReaderList;

use crate::{
    calls::{ListCall, Reply},
    subject::{ListSubject, Subjects},
};

#[derive(Clone, Copy, PartialEq, Eq, Debug)]
pub enum ListFault {
    FrontierNotRaisedTo1,
    FrontierOverAll,
    FrontierLargest,
    FullBeforeKnown,
    DepartureForgotten,
    MatchKeepsFrontier,
}

use ListFault::*;

pub const LIST_FAULTS: [ListFault; 6] = [
    FrontierNotRaisedTo1,
    FrontierOverAll,
    FrontierLargest,
    FullBeforeKnown,
    DepartureForgotten,
    MatchKeepsFrontier,
];

pub struct FaultyList<S> {
    pub sound: S,
    pub record: ReaderList,
    pub fault: Option<ListFault>,
}

impl<S: Subjects> FaultyList<S> {
    fn soundly(&mut self, call: &ListCall) -> Reply {
        let mut list = self.sound.list(&self.record);
        let reply = list.call(call);
        self.record = list.record();
        reply
    }

    fn frontier(&self) -> Option<i64> {
        let heads = self.record.heads.iter();
        let all = self.fault == Some(FrontierOverAll);
        let mut acked = heads.filter(|h| h.reliable || all).map(|h| h.acked);
        match self.fault {
            Some(FrontierNotRaisedTo1) => acked.min(),
            Some(FrontierLargest) => acked.map(|a| a.max(1)).max(),
            _ => acked.by_ref().map(|a| a.max(1)).min(),
        }
    }
}

impl<S: Subjects> ListSubject for FaultyList<S> {
    fn call(&mut self, call: &ListCall) -> Reply {
        let full = self.record.heads.len() >= self.record.room;
        match (self.fault, call) {
            (Some(FullBeforeKnown), ListCall::Match { .. }) if full => Reply::refused(8),
            (Some(DepartureForgotten), ListCall::Depart { id }) => {
                let answer = self.soundly(&ListCall::Find { id: *id }).answer;
                Reply::refused(answer)
            }
            (Some(MatchKeepsFrontier), ListCall::Match { id, .. }) => {
                let frontier = self.soundly(&ListCall::Frontier).number;
                let reply = self.soundly(call);
                if reply.answer == 0 {
                    let mut heads = self.record.heads.iter_mut();
                    heads.find(|h| h.id == *id).expect("matched").acked = frontier;
                }
                reply
            }
            (Some(_), ListCall::Frontier) => Reply {
                number: self.frontier().unwrap_or(0),
                ..Reply::default()
            },
            _ => self.soundly(call),
        }
    }

    fn record(&self) -> ReaderList {
        self.record.clone()
    }
}
