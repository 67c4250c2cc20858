//! Every answer that a round can give, and a script that leads to it.

use super::draft::Draft;
use crate::chance::Chance;
use crate::link::{Heard, Round};
use crate::material::{self, SPOILT_BACK, SPOILT_FORWARD, Sort};
use crate::refusals::{Answer, Refusal};
use crate::script::{Order, Setup};

const SENT: [Answer; 3] = [Ok(()), Err(Refusal::Idle), Err(Refusal::Full)];

const HEARD: [Heard; 6] = [
    heard(Ok(()), Ok(())),
    heard(Ok(()), Err(Refusal::Full)),
    heard(Err(Refusal::Repeat), Ok(())),
    heard(Err(Refusal::Repeat), Err(Refusal::Full)),
    heard(Err(Refusal::Spoilt), Err(Refusal::Silent)),
    heard(Err(Refusal::Silent), Err(Refusal::Silent)),
];

const SETTLED: [Answer; 4] = [
    Ok(()),
    Err(Refusal::Silent),
    Err(Refusal::Spoilt),
    Err(Refusal::Stale),
];

const fn heard(word: Answer, reply: Answer) -> Heard {
    Heard { word, reply }
}

/// The answers that rounds of a set-up can give.
pub fn reachable(setup: Setup) -> Vec<Round> {
    let mut rounds = Vec::new();
    for sent in SENT {
        for heard in HEARD {
            for settled in SETTLED {
                rounds.push(Round {
                    sent,
                    heard,
                    settled,
                });
            }
        }
    }
    rounds.retain(|round| is_reachable(setup, round));
    rounds
}

fn is_reachable(setup: Setup, round: &Round) -> bool {
    if round.settled.is_ok() && is_idle(round) {
        return false;
    }
    if round.heard.reply == Err(Refusal::Full) && round.settled == Err(Refusal::Silent) {
        return false;
    }
    setup == Setup::Second || is_reachable_first(round)
}

/// With one place each way and no delay, a word sent is heard and a reply put is settled.
fn is_reachable_first(round: &Round) -> bool {
    let word = round.heard.word;
    let heard_fits = match round.sent {
        Ok(()) => word.is_ok() || word == Err(Refusal::Repeat),
        Err(Refusal::Full) => word != Err(Refusal::Silent),
        Err(_) => true,
    };
    let settled_fits = match (round.heard.reply, round.sent) {
        (Ok(()), Ok(())) => round.settled.is_ok(),
        (Ok(()), Err(_)) => round.settled.is_ok() || round.settled == Err(Refusal::Stale),
        (Err(_), _) => true,
    };
    heard_fits && settled_fits
}

fn is_idle(round: &Round) -> bool {
    round.sent == Err(Refusal::Idle)
}

/// Leads a new link to the point where the next round answers so.
pub fn lead_to(draft: &mut Draft, chance: &mut Chance, aim: &Round) {
    if draft.setup() == Setup::Second {
        spend_losses(draft, chance, aim);
    }
    let labels = draft.labels();
    draft.order(Order::SetSenderLabel(material::label_byte(chance, labels)));
    if !is_idle(aim) {
        draft.order(Order::Offer(material::record(chance, draft.kind())));
    }
    place_forward(draft, chance, aim);
    place_back(draft, chance, aim);
}

/// Puts words until the channels of the second set-up lose no more and are empty, except that
/// the next reply is lost where it has to be.
fn spend_losses(draft: &mut Draft, chance: &mut Chance, aim: &Round) {
    let spoilt = spoilt_word(draft, chance, &SPOILT_FORWARD);
    draft.orders(Order::PutForward(spoilt), 3);
    draft.orders(Order::Tick, 2);
    draft.order(Order::Hear);
    let loses_reply = aim.heard.reply.is_ok() && aim.settled == Err(Refusal::Silent);
    let spoilt = spoilt_word(draft, chance, &SPOILT_BACK);
    draft.orders(Order::PutBack(spoilt), if loses_reply { 1 } else { 2 });
    draft.order(Order::Settle);
}

/// Sets the receiver's label and puts the words that a send and a hear are to meet.
fn place_forward(draft: &mut Draft, chance: &mut Chance, aim: &Round) {
    let labels = draft.labels();
    let hears_own = draft.setup() == Setup::First && aim.sent.is_ok();
    let stale_reply = aim.heard.reply.is_ok() && aim.settled == Err(Refusal::Stale);
    let label = if stale_reply && !hears_own {
        labels.wrap(u64::from(labels.of_sender()) + chance.from_to(1, u64::from(labels.count) - 1))
    } else {
        labels.of_sender()
    };
    let receiver = match aim.heard.word {
        Err(Refusal::Repeat) => label,
        _ => labels.wrap(u64::from(label) + chance.from_to(1, u64::from(labels.count) - 1)),
    };
    draft.order(Order::SetReceiverLabel(receiver));
    let word = match aim.heard.word {
        Err(Refusal::Spoilt) => Some(spoilt_word(draft, chance, &SPOILT_FORWARD)),
        Err(Refusal::Silent) => None,
        _ => Some(material::labelled(
            chance,
            draft.kind(),
            label,
            Sort::Record,
        )),
    };
    if let Some(word) = word.filter(|_| !hears_own) {
        draft.order(Order::PutForward(word));
    }
    if draft.setup() == Setup::Second {
        draft.orders(Order::Tick, 2);
        if aim.sent == Err(Refusal::Full) {
            let word = material::word(chance, draft.kind(), labels, Sort::Record);
            draft.orders(Order::PutForward(word), 3);
        }
    }
}

/// Puts the words that a reply and a settle are to meet.
fn place_back(draft: &mut Draft, chance: &mut Chance, aim: &Round) {
    let labels = draft.labels();
    let answers_reply = aim.heard.reply.is_ok() && aim.settled != Err(Refusal::Spoilt);
    if answers_reply || aim.settled == Err(Refusal::Silent) {
        return;
    }
    let other = labels.of_sender() as u64 + chance.from_to(1, u64::from(labels.count) - 1);
    let word = match aim.settled {
        Err(Refusal::Spoilt) => spoilt_word(draft, chance, &SPOILT_BACK),
        Err(Refusal::Stale) => material::labelled(
            chance,
            draft.kind(),
            labels.wrap(other),
            Sort::Acknowledgement,
        ),
        _ => material::labelled(
            chance,
            draft.kind(),
            labels.of_sender(),
            Sort::Acknowledgement,
        ),
    };
    let times = match (aim.heard.reply, draft.setup()) {
        (Err(Refusal::Full), Setup::Second) => 3,
        _ => 1,
    };
    draft.orders(Order::PutBack(word), times);
}

/// A word of one of these sorts; with 256 labels, none of the sorts that a label spoils.
fn spoilt_word(draft: &Draft, chance: &mut Chance, sorts: &[Sort]) -> u64 {
    let labels = draft.labels();
    let by_label = [Sort::LargeLabel, Sort::LargeLabelAcknowledged];
    let sort = loop {
        let sort = chance.pick(sorts);
        if labels.count < 256 || !by_label.contains(&sort) {
            break sort;
        }
    };
    material::word(chance, draft.kind(), labels, sort)
}
