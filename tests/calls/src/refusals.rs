//! The model's refusals as the crate's enums have them.

use model::refusal::Refusal;
use oven::{
    AdmitRefusal, CloseRefusal, CountRefusal, HandOverRefusal, OpenRefusal, PromiseRefusal,
    WithdrawRefusal,
};

/// The number of the model's answer.
pub fn number<T>(answer: &Result<T, Refusal>) -> u8 {
    answer
        .as_ref()
        .err()
        .map_or(0, |refusal| refusal.number() as u8)
}

/// A refusal of the crate with its number.
pub type Numbered<R> = (R, u8);

pub fn opening(refusal: Refusal) -> Numbered<OpenRefusal> {
    match refusal {
        Refusal::Depth => (OpenRefusal::Depth, 1),
        other => panic!("opening never gives {other:?}"),
    }
}

pub fn admitting(refusal: Refusal) -> Numbered<AdmitRefusal> {
    match refusal {
        Refusal::Unsound => (AdmitRefusal::Unsound, 2),
        Refusal::BookEnded => (AdmitRefusal::BookEnded, 3),
        Refusal::Ticket => (AdmitRefusal::Ticket, 4),
        Refusal::Laxity => (AdmitRefusal::Wait, 5),
        Refusal::Grade => (AdmitRefusal::Grade, 6),
        Refusal::SlotFull => (AdmitRefusal::SlotFull, 7),
        other => panic!("admitting never gives {other:?}"),
    }
}

pub fn closing(refusal: Refusal) -> Numbered<CloseRefusal> {
    match refusal {
        Refusal::Unsound => (CloseRefusal::Unsound, 2),
        Refusal::BookEnded => (CloseRefusal::BookEnded, 3),
        Refusal::ListShort => (CloseRefusal::ListShort, 8),
        other => panic!("closing never gives {other:?}"),
    }
}

pub fn promising(refusal: Refusal) -> Numbered<PromiseRefusal> {
    match refusal {
        Refusal::Unsound => (PromiseRefusal::Unsound, 2),
        Refusal::BookEnded => (PromiseRefusal::BookEnded, 3),
        other => panic!("promising never gives {other:?}"),
    }
}

pub fn withdrawing(refusal: Refusal) -> Numbered<WithdrawRefusal> {
    match refusal {
        Refusal::Unsound => (WithdrawRefusal::Unsound, 2),
        Refusal::BookEnded => (WithdrawRefusal::BookEnded, 3),
        Refusal::NotWaiting => (WithdrawRefusal::NotWaiting, 17),
        other => panic!("withdrawing never gives {other:?}"),
    }
}

pub fn counting(refusal: Refusal) -> Numbered<CountRefusal> {
    match refusal {
        Refusal::NoSuchCount => (CountRefusal::NoSuchCount, 9),
        Refusal::CountFull => (CountRefusal::CountFull, 10),
        other => panic!("counting never gives {other:?}"),
    }
}

pub fn handing_over(refusal: Refusal) -> Numbered<HandOverRefusal> {
    match refusal {
        Refusal::OffSheet => (HandOverRefusal::OffSheet, 16),
        other => panic!("handing over never gives {other:?}"),
    }
}
